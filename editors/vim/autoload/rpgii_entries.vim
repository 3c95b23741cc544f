" The entries of the sheets, made by tools/check/editors from `bureau entries --json`; change the program's table (crates/s3_entries) instead.

" the columns that a tab goes to, by sheet
let g:rpgii_entries#stops = {'H': [7, 75], 'F': [7, 15, 16, 17, 18, 19, 20, 24, 28, 29, 31, 32, 33, 35, 40, 66, 71, 75], 'I': [7, 15, 19, 21, 25, 26, 27, 28, 32, 33, 34, 35, 39, 40, 41, 43, 44, 48, 52, 53, 59, 61, 63, 65, 67, 69, 75], 'C': [7, 9, 12, 15, 18, 28, 33, 43, 49, 52, 53, 54, 56, 58, 60, 75], 'O': [7, 15, 16, 18, 19, 21, 23, 26, 29, 32, 38, 39, 40, 44, 45, 75]}

" the first column that only a card of a field has, by sheet
let g:rpgii_entries#fields = {'I': 42, 'O': 32}

" the entries of each kind of card
let g:rpgii_entries#cards = {}
let g:rpgii_entries#cards['H card'] = [
      \ {'from': 7, 'to': 7, 'name': 'comment', 'allowed': '* makes a comment of a card of any sheet', 'values': ['*']},
      \ {'from': 75, 'to': 80, 'name': 'program identification', 'allowed': 'the name of the program; blank for RPGOBJ', 'values': []},
      \ ]
let g:rpgii_entries#cards['F card'] = [
      \ {'from': 7, 'to': 14, 'name': 'filename', 'allowed': 'a name of at most 8 characters', 'values': []},
      \ {'from': 15, 'to': 15, 'name': 'file type', 'allowed': 'I, O or U', 'values': ['I', 'O', 'U']},
      \ {'from': 16, 'to': 16, 'name': 'file designation', 'allowed': 'P, S or C; blank for output', 'values': ['P', 'S', 'C']},
      \ {'from': 17, 'to': 17, 'name': 'end of file', 'allowed': 'E with P or S, or blank', 'values': ['E']},
      \ {'from': 18, 'to': 18, 'name': 'sequence', 'allowed': 'A or blank, both ascending', 'values': ['A']},
      \ {'from': 19, 'to': 19, 'name': 'file format', 'allowed': 'F', 'values': ['F']},
      \ {'from': 20, 'to': 23, 'name': 'block length', 'allowed': 'a number or blank; not used', 'values': []},
      \ {'from': 24, 'to': 27, 'name': 'record length', 'allowed': '1 to 96 on MFCU1 and MFCU2, to 132 on PRINTER, to 1024 on DISK', 'values': []},
      \ {'from': 28, 'to': 28, 'name': 'mode of processing', 'allowed': 'R or blank', 'values': ['R']},
      \ {'from': 29, 'to': 30, 'name': 'length of key field', 'allowed': '1 to 29 for an indexed file, or blank', 'values': []},
      \ {'from': 31, 'to': 31, 'name': 'record address type', 'allowed': 'A for an indexed file, or blank', 'values': ['A']},
      \ {'from': 32, 'to': 32, 'name': 'type of file organization', 'allowed': 'I for an indexed file, or blank', 'values': ['I']},
      \ {'from': 33, 'to': 34, 'name': 'overflow indicator', 'allowed': 'OA to OG or OV on PRINTER, or blank', 'values': ['OA', 'OB', 'OC', 'OD', 'OE', 'OF', 'OG', 'OV']},
      \ {'from': 35, 'to': 38, 'name': 'key field starting location', 'allowed': 'the position of an indexed file''s key, or blank', 'values': []},
      \ {'from': 40, 'to': 46, 'name': 'device', 'allowed': 'MFCU1, MFCU2, PRINTER or DISK', 'values': ['MFCU1', 'MFCU2', 'PRINTER', 'DISK']},
      \ {'from': 66, 'to': 66, 'name': 'file addition', 'allowed': 'A or blank', 'values': ['A']},
      \ {'from': 71, 'to': 72, 'name': 'file condition', 'allowed': 'U1 to U8, or blank', 'values': ['U1', 'U2', 'U3', 'U4', 'U5', 'U6', 'U7', 'U8']},
      \ ]
let g:rpgii_entries#cards['I record'] = [
      \ {'from': 7, 'to': 14, 'name': 'filename', 'allowed': 'a name of at most 8 characters', 'values': []},
      \ {'from': 15, 'to': 16, 'name': 'sequence', 'allowed': 'two letters', 'values': []},
      \ {'from': 19, 'to': 20, 'name': 'record identifying indicator', 'allowed': '01 to 99 or H1 to H9', 'values': []},
      \ {'from': 21, 'to': 24, 'name': 'position', 'allowed': 'a position of the record; blank for a code that isn''t used', 'values': []},
      \ {'from': 25, 'to': 25, 'name': 'not', 'allowed': 'N or blank', 'values': ['N']},
      \ {'from': 26, 'to': 26, 'name': 'C/Z/D', 'allowed': 'C, Z or D: the character, its zone or its digit', 'values': ['C', 'Z', 'D']},
      \ {'from': 27, 'to': 27, 'name': 'character', 'allowed': 'any character', 'values': []},
      \ {'from': 28, 'to': 31, 'name': 'position', 'allowed': 'a position of the record; blank for a code that isn''t used', 'values': []},
      \ {'from': 32, 'to': 32, 'name': 'not', 'allowed': 'N or blank', 'values': ['N']},
      \ {'from': 33, 'to': 33, 'name': 'C/Z/D', 'allowed': 'C, Z or D: the character, its zone or its digit', 'values': ['C', 'Z', 'D']},
      \ {'from': 34, 'to': 34, 'name': 'character', 'allowed': 'any character', 'values': []},
      \ {'from': 35, 'to': 38, 'name': 'position', 'allowed': 'a position of the record; blank for a code that isn''t used', 'values': []},
      \ {'from': 39, 'to': 39, 'name': 'not', 'allowed': 'N or blank', 'values': ['N']},
      \ {'from': 40, 'to': 40, 'name': 'C/Z/D', 'allowed': 'C, Z or D: the character, its zone or its digit', 'values': ['C', 'Z', 'D']},
      \ {'from': 41, 'to': 41, 'name': 'character', 'allowed': 'any character', 'values': []},
      \ ]
let g:rpgii_entries#cards['I group'] = [
      \ {'from': 14, 'to': 16, 'name': 'AND or OR', 'allowed': 'AND or OR', 'values': ['AND', 'OR']},
      \ {'from': 19, 'to': 20, 'name': 'record identifying indicator', 'allowed': '01 to 99 or H1 to H9', 'values': []},
      \ {'from': 21, 'to': 24, 'name': 'position', 'allowed': 'a position of the record; blank for a code that isn''t used', 'values': []},
      \ {'from': 25, 'to': 25, 'name': 'not', 'allowed': 'N or blank', 'values': ['N']},
      \ {'from': 26, 'to': 26, 'name': 'C/Z/D', 'allowed': 'C, Z or D: the character, its zone or its digit', 'values': ['C', 'Z', 'D']},
      \ {'from': 27, 'to': 27, 'name': 'character', 'allowed': 'any character', 'values': []},
      \ {'from': 28, 'to': 31, 'name': 'position', 'allowed': 'a position of the record; blank for a code that isn''t used', 'values': []},
      \ {'from': 32, 'to': 32, 'name': 'not', 'allowed': 'N or blank', 'values': ['N']},
      \ {'from': 33, 'to': 33, 'name': 'C/Z/D', 'allowed': 'C, Z or D: the character, its zone or its digit', 'values': ['C', 'Z', 'D']},
      \ {'from': 34, 'to': 34, 'name': 'character', 'allowed': 'any character', 'values': []},
      \ {'from': 35, 'to': 38, 'name': 'position', 'allowed': 'a position of the record; blank for a code that isn''t used', 'values': []},
      \ {'from': 39, 'to': 39, 'name': 'not', 'allowed': 'N or blank', 'values': ['N']},
      \ {'from': 40, 'to': 40, 'name': 'C/Z/D', 'allowed': 'C, Z or D: the character, its zone or its digit', 'values': ['C', 'Z', 'D']},
      \ {'from': 41, 'to': 41, 'name': 'character', 'allowed': 'any character', 'values': []},
      \ ]
let g:rpgii_entries#cards['I field'] = [
      \ {'from': 43, 'to': 43, 'name': 'packed', 'allowed': 'P in a file on DISK, or blank', 'values': ['P']},
      \ {'from': 44, 'to': 47, 'name': 'field location from', 'allowed': '1 to 9999, within the record', 'values': []},
      \ {'from': 48, 'to': 51, 'name': 'field location to', 'allowed': '1 to 9999, within the record', 'values': []},
      \ {'from': 52, 'to': 52, 'name': 'decimal positions', 'allowed': '0 to 9 for a number, blank for a text', 'values': ['0', '1', '2', '3', '4', '5', '6', '7', '8', '9']},
      \ {'from': 53, 'to': 58, 'name': 'field name', 'allowed': 'a name of at most 6 characters', 'values': []},
      \ {'from': 59, 'to': 60, 'name': 'control level', 'allowed': 'L1 to L9, or blank', 'values': ['L1', 'L2', 'L3', 'L4', 'L5', 'L6', 'L7', 'L8', 'L9']},
      \ {'from': 61, 'to': 62, 'name': 'matching fields', 'allowed': 'M1 to M9, or blank', 'values': ['M1', 'M2', 'M3', 'M4', 'M5', 'M6', 'M7', 'M8', 'M9']},
      \ {'from': 63, 'to': 64, 'name': 'field record relation', 'allowed': 'a record identifying indicator of the group, or blank', 'values': []},
      \ {'from': 65, 'to': 66, 'name': 'field indicator plus', 'allowed': '01 to 99 or H1 to H9 for a number, or blank', 'values': []},
      \ {'from': 67, 'to': 68, 'name': 'field indicator minus', 'allowed': '01 to 99 or H1 to H9 for a number, or blank', 'values': []},
      \ {'from': 69, 'to': 70, 'name': 'field indicator zero or blank', 'allowed': '01 to 99 or H1 to H9, or blank', 'values': []},
      \ ]
let g:rpgii_entries#cards['C card'] = [
      \ {'from': 7, 'to': 8, 'name': 'control level', 'allowed': 'blank for detail time, L0 to L9, LR, SR, AN or OR', 'values': ['L0', 'L1', 'L2', 'L3', 'L4', 'L5', 'L6', 'L7', 'L8', 'L9', 'LR', 'SR', 'AN', 'OR']},
      \ {'from': 9, 'to': 11, 'name': 'first indicator', 'allowed': 'blank or N, and then an indicator', 'values': []},
      \ {'from': 12, 'to': 14, 'name': 'second indicator', 'allowed': 'blank or N, and then an indicator', 'values': []},
      \ {'from': 15, 'to': 17, 'name': 'third indicator', 'allowed': 'blank or N, and then an indicator', 'values': []},
      \ {'from': 18, 'to': 27, 'name': 'factor 1', 'allowed': 'a name, a number or a text in apostrophes; blank if the operation takes none', 'values': []},
      \ {'from': 28, 'to': 32, 'name': 'operation', 'allowed': 'an operation; blank if an AN or OR card follows', 'values': ['ADD', 'SUB', 'MULT', 'DIV', 'Z-ADD', 'Z-SUB', 'MVR', 'COMP', 'MOVE', 'MOVEL', 'SETON', 'SETOF', 'GOTO', 'TAG', 'EXSR', 'BEGSR', 'ENDSR', 'EXCPT', 'CHAIN']},
      \ {'from': 33, 'to': 42, 'name': 'factor 2', 'allowed': 'a name, a number or a text in apostrophes; blank if the operation takes none', 'values': []},
      \ {'from': 43, 'to': 48, 'name': 'result field', 'allowed': 'a name of at most 6 characters; blank if the operation has no result', 'values': []},
      \ {'from': 49, 'to': 51, 'name': 'field length', 'allowed': '1 to 15 for a number, 1 to 256 for a text; blank if the field is defined elsewhere', 'values': []},
      \ {'from': 52, 'to': 52, 'name': 'decimal positions', 'allowed': '0 to 9 for a number, blank for a text', 'values': ['0', '1', '2', '3', '4', '5', '6', '7', '8', '9']},
      \ {'from': 53, 'to': 53, 'name': 'half adjust', 'allowed': 'H or blank', 'values': ['H']},
      \ {'from': 54, 'to': 55, 'name': 'resulting indicator plus or high', 'allowed': '01 to 99, L1 to L9, LR or H1 to H9, with SETON and SETOF also OA to OG or OV; or blank', 'values': []},
      \ {'from': 56, 'to': 57, 'name': 'resulting indicator minus or low', 'allowed': '01 to 99, L1 to L9, LR or H1 to H9, with SETON and SETOF also OA to OG or OV; or blank', 'values': []},
      \ {'from': 58, 'to': 59, 'name': 'resulting indicator zero or equal', 'allowed': '01 to 99, L1 to L9, LR or H1 to H9, with SETON and SETOF also OA to OG or OV; or blank', 'values': []},
      \ {'from': 60, 'to': 74, 'name': 'comments', 'allowed': 'blank; bureau punch --remarks blanks the remarks of old decks', 'values': []},
      \ ]
let g:rpgii_entries#cards['O record'] = [
      \ {'from': 7, 'to': 14, 'name': 'filename', 'allowed': 'a name of at most 8 characters; blank for the file of the line before', 'values': []},
      \ {'from': 15, 'to': 15, 'name': 'type', 'allowed': 'H, D, T or E', 'values': ['H', 'D', 'T', 'E']},
      \ {'from': 16, 'to': 18, 'name': 'record addition', 'allowed': 'ADD; else 16 is blank, and 17 and 18 are the spaces', 'values': ['ADD']},
      \ {'from': 17, 'to': 17, 'name': 'space before', 'allowed': '0 to 3 on PRINTER, or blank', 'values': ['0', '1', '2', '3']},
      \ {'from': 18, 'to': 18, 'name': 'space after', 'allowed': '0 to 3 on PRINTER, or blank', 'values': ['0', '1', '2', '3']},
      \ {'from': 19, 'to': 20, 'name': 'skip before', 'allowed': '01 to 66 on PRINTER, or blank', 'values': []},
      \ {'from': 21, 'to': 22, 'name': 'skip after', 'allowed': '01 to 66 on PRINTER, or blank', 'values': []},
      \ {'from': 23, 'to': 25, 'name': 'first output indicator', 'allowed': 'blank or N, and then an indicator', 'values': []},
      \ {'from': 26, 'to': 28, 'name': 'second output indicator', 'allowed': 'blank or N, and then an indicator', 'values': []},
      \ {'from': 29, 'to': 31, 'name': 'third output indicator', 'allowed': 'blank or N, and then an indicator', 'values': []},
      \ ]
let g:rpgii_entries#cards['O group'] = [
      \ {'from': 14, 'to': 16, 'name': 'AND or OR', 'allowed': 'AND or OR', 'values': ['AND', 'OR']},
      \ {'from': 23, 'to': 25, 'name': 'first output indicator', 'allowed': 'blank or N, and then an indicator', 'values': []},
      \ {'from': 26, 'to': 28, 'name': 'second output indicator', 'allowed': 'blank or N, and then an indicator', 'values': []},
      \ {'from': 29, 'to': 31, 'name': 'third output indicator', 'allowed': 'blank or N, and then an indicator', 'values': []},
      \ ]
let g:rpgii_entries#cards['O field'] = [
      \ {'from': 23, 'to': 25, 'name': 'first output indicator', 'allowed': 'blank or N, and then an indicator', 'values': []},
      \ {'from': 26, 'to': 28, 'name': 'second output indicator', 'allowed': 'blank or N, and then an indicator', 'values': []},
      \ {'from': 29, 'to': 31, 'name': 'third output indicator', 'allowed': 'blank or N, and then an indicator', 'values': []},
      \ {'from': 32, 'to': 37, 'name': 'field name', 'allowed': 'a name of at most 6 characters; blank with a constant', 'values': []},
      \ {'from': 38, 'to': 38, 'name': 'edit codes', 'allowed': '1 to 4, A to D, J to M, X, Y or Z for a number, or blank', 'values': ['1', '2', '3', '4', 'A', 'B', 'C', 'D', 'J', 'K', 'L', 'M', 'X', 'Y', 'Z']},
      \ {'from': 39, 'to': 39, 'name': 'blank after', 'allowed': 'B or blank', 'values': ['B']},
      \ {'from': 40, 'to': 43, 'name': 'end position in output record', 'allowed': '1 to 9999, within the record', 'values': []},
      \ {'from': 44, 'to': 44, 'name': 'packed', 'allowed': 'P in a file on DISK, without edit code, or blank', 'values': ['P']},
      \ {'from': 45, 'to': 70, 'name': 'constant or edit word', 'allowed': '1 to 24 characters in apostrophes, an apostrophe written twice; edit words are left out', 'values': []},
      \ ]
