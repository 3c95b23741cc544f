" The syntax of RPG II cards, by sheet and column: made by tools/check/editors from `bureau entries --json`; change the program's table (crates/s3_entries) instead.
if exists("b:current_syntax")
  finish
endif
syntax case ignore
syntax sync fromstart

" statements, the ends of data and of jobs, and the data of a program
syntax match rpgiiStatement "^//.*$" contains=rpgiiKeyword
syntax match rpgiiKeyword "^//\s*\zs\w\+" contained
syntax match rpgiiEnd "^/[*&].*$"
syntax region rpgiiJob start="^//\s*LOAD\s\+\%($RPG\)\@!" end="^/[*&]" keepend contains=rpgiiStatement,rpgiiEnd,rpgiiTyped
" what only plain text has: comments, and cards in pieces
syntax match rpgiiTyped "^#.*$"
syntax match rpgiiPieces "^%.*$" contains=rpgiiColumn
syntax match rpgiiColumn "\d\{1,2}\ze:" contained
syntax match rpgiiComment "^[^/#%].\{5}\*.*$"

" H card
syntax match rpgiiHCardWrong "\%7v\S" contained
syntax match rpgiiBlank "\%7v \{1,1}\%(\%8v\|$\)" contained
syntax match rpgiiHComment "\%7v\%(\*\)" contained
syntax match rpgiiHProgramIdentification "\%75v[^\t]\{1,6}" contained
syntax match rpgiiHCard "^\%(\t\| \{1,4}\t\|[ 0-9]\{5}\)H\*\@!.*$" contains=rpgiiHComment,rpgiiHProgramIdentification,rpgiiSheet,rpgiiNumber
syntax match rpgiiHCard "^[ 0-9]\{5}H\*\@![^\t]*$" contains=rpgiiHComment,rpgiiHProgramIdentification,rpgiiSheet,rpgiiNumber,rpgiiHCardWrong,rpgiiBlank

" F card
syntax match rpgiiFFilename "\%7v[^\t]\{1,8}" contained
syntax match rpgiiFCardWrong "\%15v\S" contained
syntax match rpgiiBlank "\%15v \{1,1}\%(\%16v\|$\)" contained
syntax match rpgiiFFileType "\%15v\%(I\|O\|U\)" contained
syntax match rpgiiFCardWrong "\%16v\S" contained
syntax match rpgiiBlank "\%16v \{1,1}\%(\%17v\|$\)" contained
syntax match rpgiiFFileDesignation "\%16v\%(P\|S\|C\)" contained
syntax match rpgiiFCardWrong "\%17v\S" contained
syntax match rpgiiBlank "\%17v \{1,1}\%(\%18v\|$\)" contained
syntax match rpgiiFEndOfFile "\%17v\%(E\)" contained
syntax match rpgiiFCardWrong "\%18v\S" contained
syntax match rpgiiBlank "\%18v \{1,1}\%(\%19v\|$\)" contained
syntax match rpgiiFSequence "\%18v\%(A\)" contained
syntax match rpgiiFCardWrong "\%19v\S" contained
syntax match rpgiiBlank "\%19v \{1,1}\%(\%20v\|$\)" contained
syntax match rpgiiFFileFormat "\%19v\%(F\)" contained
syntax match rpgiiFBlockLength "\%20v[^\t]\{1,4}" contained
syntax match rpgiiFRecordLength "\%24v[^\t]\{1,4}" contained
syntax match rpgiiFCardWrong "\%28v\S" contained
syntax match rpgiiBlank "\%28v \{1,1}\%(\%29v\|$\)" contained
syntax match rpgiiFModeOfProcessing "\%28v\%(R\)" contained
syntax match rpgiiFLengthOfKeyField "\%29v[^\t]\{1,2}" contained
syntax match rpgiiFCardWrong "\%31v\S" contained
syntax match rpgiiBlank "\%31v \{1,1}\%(\%32v\|$\)" contained
syntax match rpgiiFRecordAddressType "\%31v\%(A\)" contained
syntax match rpgiiFCardWrong "\%32v\S" contained
syntax match rpgiiBlank "\%32v \{1,1}\%(\%33v\|$\)" contained
syntax match rpgiiFTypeOfFileOrganization "\%32v\%(I\)" contained
syntax match rpgiiFCardWrong "\%33v[^\t][^\t]\{0,1}" contained
syntax match rpgiiBlank "\%33v \{1,2}\%(\%35v\|$\)" contained
syntax match rpgiiFOverflowIndicator "\%33v\%(OA\|OB\|OC\|OD\|OE\|OF\|OG\|OV\)" contained
syntax match rpgiiFKeyFieldStartingLocation "\%35v[^\t]\{1,4}" contained
syntax match rpgiiFCardWrong "\%40v[^\t][^\t]\{0,6}" contained
syntax match rpgiiBlank "\%40v \{1,7}\%(\%47v\|$\)" contained
syntax match rpgiiFDevice "\%40v\%(MFCU1  \|MFCU1\s*$\|MFCU2  \|MFCU2\s*$\|PRINTER\|DISK   \|DISK\s*$\)" contained
syntax match rpgiiFCardWrong "\%66v\S" contained
syntax match rpgiiBlank "\%66v \{1,1}\%(\%67v\|$\)" contained
syntax match rpgiiFFileAddition "\%66v\%(A\)" contained
syntax match rpgiiFCardWrong "\%71v[^\t][^\t]\{0,1}" contained
syntax match rpgiiBlank "\%71v \{1,2}\%(\%73v\|$\)" contained
syntax match rpgiiFFileCondition "\%71v\%(U1\|U2\|U3\|U4\|U5\|U6\|U7\|U8\)" contained
syntax match rpgiiFCard "^\%(\t\| \{1,4}\t\|[ 0-9]\{5}\)F\*\@!.*$" contains=rpgiiFFilename,rpgiiFFileType,rpgiiFFileDesignation,rpgiiFEndOfFile,rpgiiFSequence,rpgiiFFileFormat,rpgiiFBlockLength,rpgiiFRecordLength,rpgiiFModeOfProcessing,rpgiiFLengthOfKeyField,rpgiiFRecordAddressType,rpgiiFTypeOfFileOrganization,rpgiiFOverflowIndicator,rpgiiFKeyFieldStartingLocation,rpgiiFDevice,rpgiiFFileAddition,rpgiiFFileCondition,rpgiiSheet,rpgiiNumber
syntax match rpgiiFCard "^[ 0-9]\{5}F\*\@![^\t]*$" contains=rpgiiFFilename,rpgiiFFileType,rpgiiFFileDesignation,rpgiiFEndOfFile,rpgiiFSequence,rpgiiFFileFormat,rpgiiFBlockLength,rpgiiFRecordLength,rpgiiFModeOfProcessing,rpgiiFLengthOfKeyField,rpgiiFRecordAddressType,rpgiiFTypeOfFileOrganization,rpgiiFOverflowIndicator,rpgiiFKeyFieldStartingLocation,rpgiiFDevice,rpgiiFFileAddition,rpgiiFFileCondition,rpgiiSheet,rpgiiNumber,rpgiiFCardWrong,rpgiiBlank

" C card
syntax match rpgiiCCardWrong "\%7v[^\t][^\t]\{0,1}" contained
syntax match rpgiiBlank "\%7v \{1,2}\%(\%9v\|$\)" contained
syntax match rpgiiCControlLevel "\%7v\%(L0\|L1\|L2\|L3\|L4\|L5\|L6\|L7\|L8\|L9\|LR\|SR\|AN\|OR\)" contained
syntax match rpgiiCFirstIndicator "\%9v[^\t]\{1,3}" contained
syntax match rpgiiCSecondIndicator "\%12v[^\t]\{1,3}" contained
syntax match rpgiiCThirdIndicator "\%15v[^\t]\{1,3}" contained
syntax match rpgiiCFactor1 "\%18v[^\t]\{1,10}" contained
syntax match rpgiiCCardWrong "\%28v[^\t][^\t]\{0,4}" contained
syntax match rpgiiBlank "\%28v \{1,5}\%(\%33v\|$\)" contained
syntax match rpgiiCOperation "\%28v\%(ADD  \|ADD\s*$\|SUB  \|SUB\s*$\|MULT \|MULT\s*$\|DIV  \|DIV\s*$\|Z-ADD\|Z-SUB\|MVR  \|MVR\s*$\|COMP \|COMP\s*$\|MOVE \|MOVE\s*$\|MOVEL\|SETON\|SETOF\|GOTO \|GOTO\s*$\|TAG  \|TAG\s*$\|EXSR \|EXSR\s*$\|BEGSR\|ENDSR\|EXCPT\|CHAIN\)" contained
syntax match rpgiiCFactor2 "\%33v[^\t]\{1,10}" contained
syntax match rpgiiCResultField "\%43v[^\t]\{1,6}" contained
syntax match rpgiiCFieldLength "\%49v[^\t]\{1,3}" contained
syntax match rpgiiCCardWrong "\%52v\S" contained
syntax match rpgiiBlank "\%52v \{1,1}\%(\%53v\|$\)" contained
syntax match rpgiiCDecimalPositions "\%52v\%(0\|1\|2\|3\|4\|5\|6\|7\|8\|9\)" contained
syntax match rpgiiCCardWrong "\%53v\S" contained
syntax match rpgiiBlank "\%53v \{1,1}\%(\%54v\|$\)" contained
syntax match rpgiiCHalfAdjust "\%53v\%(H\)" contained
syntax match rpgiiCResultingIndicatorPlusOrHigh "\%54v[^\t]\{1,2}" contained
syntax match rpgiiCResultingIndicatorMinusOrLow "\%56v[^\t]\{1,2}" contained
syntax match rpgiiCResultingIndicatorZeroOrEqual "\%58v[^\t]\{1,2}" contained
syntax match rpgiiCComments "\%60v[^\t]\{1,15}" contained
syntax match rpgiiCCard "^\%(\t\| \{1,4}\t\|[ 0-9]\{5}\)C\*\@!.*$" contains=rpgiiCControlLevel,rpgiiCFirstIndicator,rpgiiCSecondIndicator,rpgiiCThirdIndicator,rpgiiCFactor1,rpgiiCOperation,rpgiiCFactor2,rpgiiCResultField,rpgiiCFieldLength,rpgiiCDecimalPositions,rpgiiCHalfAdjust,rpgiiCResultingIndicatorPlusOrHigh,rpgiiCResultingIndicatorMinusOrLow,rpgiiCResultingIndicatorZeroOrEqual,rpgiiCComments,rpgiiSheet,rpgiiNumber
syntax match rpgiiCCard "^[ 0-9]\{5}C\*\@![^\t]*$" contains=rpgiiCControlLevel,rpgiiCFirstIndicator,rpgiiCSecondIndicator,rpgiiCThirdIndicator,rpgiiCFactor1,rpgiiCOperation,rpgiiCFactor2,rpgiiCResultField,rpgiiCFieldLength,rpgiiCDecimalPositions,rpgiiCHalfAdjust,rpgiiCResultingIndicatorPlusOrHigh,rpgiiCResultingIndicatorMinusOrLow,rpgiiCResultingIndicatorZeroOrEqual,rpgiiCComments,rpgiiSheet,rpgiiNumber,rpgiiCCardWrong,rpgiiBlank

" I field
syntax match rpgiiIFieldWrong "\%43v\S" contained
syntax match rpgiiBlank "\%43v \{1,1}\%(\%44v\|$\)" contained
syntax match rpgiiIFieldPacked "\%43v\%(P\)" contained
syntax match rpgiiIFieldFieldLocationFrom "\%44v[^\t]\{1,4}" contained
syntax match rpgiiIFieldFieldLocationTo "\%48v[^\t]\{1,4}" contained
syntax match rpgiiIFieldWrong "\%52v\S" contained
syntax match rpgiiBlank "\%52v \{1,1}\%(\%53v\|$\)" contained
syntax match rpgiiIFieldDecimalPositions "\%52v\%(0\|1\|2\|3\|4\|5\|6\|7\|8\|9\)" contained
syntax match rpgiiIFieldFieldName "\%53v[^\t]\{1,6}" contained
syntax match rpgiiIFieldWrong "\%59v[^\t][^\t]\{0,1}" contained
syntax match rpgiiBlank "\%59v \{1,2}\%(\%61v\|$\)" contained
syntax match rpgiiIFieldControlLevel "\%59v\%(L1\|L2\|L3\|L4\|L5\|L6\|L7\|L8\|L9\)" contained
syntax match rpgiiIFieldWrong "\%61v[^\t][^\t]\{0,1}" contained
syntax match rpgiiBlank "\%61v \{1,2}\%(\%63v\|$\)" contained
syntax match rpgiiIFieldMatchingFields "\%61v\%(M1\|M2\|M3\|M4\|M5\|M6\|M7\|M8\|M9\)" contained
syntax match rpgiiIFieldFieldRecordRelation "\%63v[^\t]\{1,2}" contained
syntax match rpgiiIFieldFieldIndicatorPlus "\%65v[^\t]\{1,2}" contained
syntax match rpgiiIFieldFieldIndicatorMinus "\%67v[^\t]\{1,2}" contained
syntax match rpgiiIFieldFieldIndicatorZeroOrBlank "\%69v[^\t]\{1,2}" contained
syntax match rpgiiIField "^\%(\t\| \{1,4}\t\|[ 0-9]\{5}\)I\*\@!.*$" contains=rpgiiIFieldPacked,rpgiiIFieldFieldLocationFrom,rpgiiIFieldFieldLocationTo,rpgiiIFieldDecimalPositions,rpgiiIFieldFieldName,rpgiiIFieldControlLevel,rpgiiIFieldMatchingFields,rpgiiIFieldFieldRecordRelation,rpgiiIFieldFieldIndicatorPlus,rpgiiIFieldFieldIndicatorMinus,rpgiiIFieldFieldIndicatorZeroOrBlank,rpgiiSheet,rpgiiNumber
syntax match rpgiiIField "^[ 0-9]\{5}I\*\@![^\t]*$" contains=rpgiiIFieldPacked,rpgiiIFieldFieldLocationFrom,rpgiiIFieldFieldLocationTo,rpgiiIFieldDecimalPositions,rpgiiIFieldFieldName,rpgiiIFieldControlLevel,rpgiiIFieldMatchingFields,rpgiiIFieldFieldRecordRelation,rpgiiIFieldFieldIndicatorPlus,rpgiiIFieldFieldIndicatorMinus,rpgiiIFieldFieldIndicatorZeroOrBlank,rpgiiSheet,rpgiiNumber,rpgiiIFieldWrong,rpgiiBlank

" O field
syntax match rpgiiOFieldFirstOutputIndicator "\%23v[^\t]\{1,3}" contained
syntax match rpgiiOFieldSecondOutputIndicator "\%26v[^\t]\{1,3}" contained
syntax match rpgiiOFieldThirdOutputIndicator "\%29v[^\t]\{1,3}" contained
syntax match rpgiiOFieldFieldName "\%32v[^\t]\{1,6}" contained
syntax match rpgiiOFieldWrong "\%38v\S" contained
syntax match rpgiiBlank "\%38v \{1,1}\%(\%39v\|$\)" contained
syntax match rpgiiOFieldEditCodes "\%38v\%(1\|2\|3\|4\|A\|B\|C\|D\|J\|K\|L\|M\|X\|Y\|Z\)" contained
syntax match rpgiiOFieldWrong "\%39v\S" contained
syntax match rpgiiBlank "\%39v \{1,1}\%(\%40v\|$\)" contained
syntax match rpgiiOFieldBlankAfter "\%39v\%(B\)" contained
syntax match rpgiiOFieldEndPositionInOutputRecord "\%40v[^\t]\{1,4}" contained
syntax match rpgiiOFieldWrong "\%44v\S" contained
syntax match rpgiiBlank "\%44v \{1,1}\%(\%45v\|$\)" contained
syntax match rpgiiOFieldPacked "\%44v\%(P\)" contained
syntax match rpgiiOFieldConstantOrEditWord "\%45v[^\t]\{1,26}" contained
syntax match rpgiiOField "^\%(\t\| \{1,4}\t\|[ 0-9]\{5}\)O\*\@!.*$" contains=rpgiiOFieldFirstOutputIndicator,rpgiiOFieldSecondOutputIndicator,rpgiiOFieldThirdOutputIndicator,rpgiiOFieldFieldName,rpgiiOFieldEditCodes,rpgiiOFieldBlankAfter,rpgiiOFieldEndPositionInOutputRecord,rpgiiOFieldPacked,rpgiiOFieldConstantOrEditWord,rpgiiSheet,rpgiiNumber
syntax match rpgiiOField "^[ 0-9]\{5}O\*\@![^\t]*$" contains=rpgiiOFieldFirstOutputIndicator,rpgiiOFieldSecondOutputIndicator,rpgiiOFieldThirdOutputIndicator,rpgiiOFieldFieldName,rpgiiOFieldEditCodes,rpgiiOFieldBlankAfter,rpgiiOFieldEndPositionInOutputRecord,rpgiiOFieldPacked,rpgiiOFieldConstantOrEditWord,rpgiiSheet,rpgiiNumber,rpgiiOFieldWrong,rpgiiBlank

" I record
syntax match rpgiiIRecordFilename "\%7v[^\t]\{1,8}" contained
syntax match rpgiiIRecordSequence "\%15v[^\t]\{1,2}" contained
syntax match rpgiiIRecordRecordIdentifyingIndicator "\%19v[^\t]\{1,2}" contained
syntax match rpgiiIRecordPosition "\%21v[^\t]\{1,4}" contained
syntax match rpgiiIRecordWrong "\%25v\S" contained
syntax match rpgiiBlank "\%25v \{1,1}\%(\%26v\|$\)" contained
syntax match rpgiiIRecordNot "\%25v\%(N\)" contained
syntax match rpgiiIRecordWrong "\%26v\S" contained
syntax match rpgiiBlank "\%26v \{1,1}\%(\%27v\|$\)" contained
syntax match rpgiiIRecordCZD "\%26v\%(C\|Z\|D\)" contained
syntax match rpgiiIRecordCharacter "\%27v[^\t]\{1,1}" contained
syntax match rpgiiIRecordPosition "\%28v[^\t]\{1,4}" contained
syntax match rpgiiIRecordWrong "\%32v\S" contained
syntax match rpgiiBlank "\%32v \{1,1}\%(\%33v\|$\)" contained
syntax match rpgiiIRecordNot "\%32v\%(N\)" contained
syntax match rpgiiIRecordWrong "\%33v\S" contained
syntax match rpgiiBlank "\%33v \{1,1}\%(\%34v\|$\)" contained
syntax match rpgiiIRecordCZD "\%33v\%(C\|Z\|D\)" contained
syntax match rpgiiIRecordCharacter "\%34v[^\t]\{1,1}" contained
syntax match rpgiiIRecordPosition "\%35v[^\t]\{1,4}" contained
syntax match rpgiiIRecordWrong "\%39v\S" contained
syntax match rpgiiBlank "\%39v \{1,1}\%(\%40v\|$\)" contained
syntax match rpgiiIRecordNot "\%39v\%(N\)" contained
syntax match rpgiiIRecordWrong "\%40v\S" contained
syntax match rpgiiBlank "\%40v \{1,1}\%(\%41v\|$\)" contained
syntax match rpgiiIRecordCZD "\%40v\%(C\|Z\|D\)" contained
syntax match rpgiiIRecordCharacter "\%41v[^\t]\{1,1}" contained
syntax match rpgiiIRecord "^\%(\t\| \{1,4}\t\|[ 0-9]\{5}\)I\*\@!\%>6v.\{-}\S\%<16v.*$" contains=rpgiiIRecordFilename,rpgiiIRecordSequence,rpgiiIRecordRecordIdentifyingIndicator,rpgiiIRecordPosition,rpgiiIRecordNot,rpgiiIRecordCZD,rpgiiIRecordCharacter,rpgiiIRecordPosition,rpgiiIRecordNot,rpgiiIRecordCZD,rpgiiIRecordCharacter,rpgiiIRecordPosition,rpgiiIRecordNot,rpgiiIRecordCZD,rpgiiIRecordCharacter,rpgiiSheet,rpgiiNumber
syntax match rpgiiIRecord "^[ 0-9]\{5}I\*\@!\%>6v[^\t]\{-}\S\%<16v[^\t]*$" contains=rpgiiIRecordFilename,rpgiiIRecordSequence,rpgiiIRecordRecordIdentifyingIndicator,rpgiiIRecordPosition,rpgiiIRecordNot,rpgiiIRecordCZD,rpgiiIRecordCharacter,rpgiiIRecordPosition,rpgiiIRecordNot,rpgiiIRecordCZD,rpgiiIRecordCharacter,rpgiiIRecordPosition,rpgiiIRecordNot,rpgiiIRecordCZD,rpgiiIRecordCharacter,rpgiiSheet,rpgiiNumber,rpgiiIRecordWrong,rpgiiBlank

" O record
syntax match rpgiiORecordFilename "\%7v[^\t]\{1,8}" contained
syntax match rpgiiORecordWrong "\%15v\S" contained
syntax match rpgiiBlank "\%15v \{1,1}\%(\%16v\|$\)" contained
syntax match rpgiiORecordType "\%15v\%(H\|D\|T\|E\)" contained
syntax match rpgiiORecordWrong "\%16v\S[^\t]\{0,2}" contained
syntax match rpgiiBlank "\%16v \{1,1}\%(\%17v\|$\)" contained
syntax match rpgiiORecordRecordAddition "\%16v\%(ADD\)" contained
syntax match rpgiiORecordWrong "\%17v\S" contained
syntax match rpgiiBlank "\%17v \{1,1}\%(\%18v\|$\)" contained
syntax match rpgiiORecordSpaceBefore "\%17v\%(0\|1\|2\|3\)" contained
syntax match rpgiiORecordWrong "\%18v\S" contained
syntax match rpgiiBlank "\%18v \{1,1}\%(\%19v\|$\)" contained
syntax match rpgiiORecordSpaceAfter "\%18v\%(0\|1\|2\|3\)" contained
syntax match rpgiiORecordSkipBefore "\%19v[^\t]\{1,2}" contained
syntax match rpgiiORecordSkipAfter "\%21v[^\t]\{1,2}" contained
syntax match rpgiiORecordFirstOutputIndicator "\%23v[^\t]\{1,3}" contained
syntax match rpgiiORecordSecondOutputIndicator "\%26v[^\t]\{1,3}" contained
syntax match rpgiiORecordThirdOutputIndicator "\%29v[^\t]\{1,3}" contained
syntax match rpgiiORecord "^\%(\t\| \{1,4}\t\|[ 0-9]\{5}\)O\*\@!\%>6v.\{-}\S\%<17v.*$" contains=rpgiiORecordFilename,rpgiiORecordType,rpgiiORecordRecordAddition,rpgiiORecordSpaceBefore,rpgiiORecordSpaceAfter,rpgiiORecordSkipBefore,rpgiiORecordSkipAfter,rpgiiORecordFirstOutputIndicator,rpgiiORecordSecondOutputIndicator,rpgiiORecordThirdOutputIndicator,rpgiiSheet,rpgiiNumber
syntax match rpgiiORecord "^[ 0-9]\{5}O\*\@!\%>6v[^\t]\{-}\S\%<17v[^\t]*$" contains=rpgiiORecordFilename,rpgiiORecordType,rpgiiORecordRecordAddition,rpgiiORecordSpaceBefore,rpgiiORecordSpaceAfter,rpgiiORecordSkipBefore,rpgiiORecordSkipAfter,rpgiiORecordFirstOutputIndicator,rpgiiORecordSecondOutputIndicator,rpgiiORecordThirdOutputIndicator,rpgiiSheet,rpgiiNumber,rpgiiORecordWrong,rpgiiBlank

" I group
syntax match rpgiiIGroupWrong "\%14v[^\t][^\t]\{0,2}" contained
syntax match rpgiiBlank "\%14v \{1,3}\%(\%17v\|$\)" contained
syntax match rpgiiIGroupAndOrOr "\%14v\%(AND\|OR \|OR\s*$\)" contained
syntax match rpgiiIGroupRecordIdentifyingIndicator "\%19v[^\t]\{1,2}" contained
syntax match rpgiiIGroupPosition "\%21v[^\t]\{1,4}" contained
syntax match rpgiiIGroupWrong "\%25v\S" contained
syntax match rpgiiBlank "\%25v \{1,1}\%(\%26v\|$\)" contained
syntax match rpgiiIGroupNot "\%25v\%(N\)" contained
syntax match rpgiiIGroupWrong "\%26v\S" contained
syntax match rpgiiBlank "\%26v \{1,1}\%(\%27v\|$\)" contained
syntax match rpgiiIGroupCZD "\%26v\%(C\|Z\|D\)" contained
syntax match rpgiiIGroupCharacter "\%27v[^\t]\{1,1}" contained
syntax match rpgiiIGroupPosition "\%28v[^\t]\{1,4}" contained
syntax match rpgiiIGroupWrong "\%32v\S" contained
syntax match rpgiiBlank "\%32v \{1,1}\%(\%33v\|$\)" contained
syntax match rpgiiIGroupNot "\%32v\%(N\)" contained
syntax match rpgiiIGroupWrong "\%33v\S" contained
syntax match rpgiiBlank "\%33v \{1,1}\%(\%34v\|$\)" contained
syntax match rpgiiIGroupCZD "\%33v\%(C\|Z\|D\)" contained
syntax match rpgiiIGroupCharacter "\%34v[^\t]\{1,1}" contained
syntax match rpgiiIGroupPosition "\%35v[^\t]\{1,4}" contained
syntax match rpgiiIGroupWrong "\%39v\S" contained
syntax match rpgiiBlank "\%39v \{1,1}\%(\%40v\|$\)" contained
syntax match rpgiiIGroupNot "\%39v\%(N\)" contained
syntax match rpgiiIGroupWrong "\%40v\S" contained
syntax match rpgiiBlank "\%40v \{1,1}\%(\%41v\|$\)" contained
syntax match rpgiiIGroupCZD "\%40v\%(C\|Z\|D\)" contained
syntax match rpgiiIGroupCharacter "\%41v[^\t]\{1,1}" contained
syntax match rpgiiIGroup "^\%(\t\| \{1,4}\t\|[ 0-9]\{5}\)I\*\@! \{7}\%(AND\|OR\).*$" contains=rpgiiIGroupAndOrOr,rpgiiIGroupRecordIdentifyingIndicator,rpgiiIGroupPosition,rpgiiIGroupNot,rpgiiIGroupCZD,rpgiiIGroupCharacter,rpgiiIGroupPosition,rpgiiIGroupNot,rpgiiIGroupCZD,rpgiiIGroupCharacter,rpgiiIGroupPosition,rpgiiIGroupNot,rpgiiIGroupCZD,rpgiiIGroupCharacter,rpgiiSheet,rpgiiNumber
syntax match rpgiiIGroup "^[ 0-9]\{5}I\*\@! \{7}\%(AND\|OR\)[^\t]*$" contains=rpgiiIGroupAndOrOr,rpgiiIGroupRecordIdentifyingIndicator,rpgiiIGroupPosition,rpgiiIGroupNot,rpgiiIGroupCZD,rpgiiIGroupCharacter,rpgiiIGroupPosition,rpgiiIGroupNot,rpgiiIGroupCZD,rpgiiIGroupCharacter,rpgiiIGroupPosition,rpgiiIGroupNot,rpgiiIGroupCZD,rpgiiIGroupCharacter,rpgiiSheet,rpgiiNumber,rpgiiIGroupWrong,rpgiiBlank

" O group
syntax match rpgiiOGroupWrong "\%14v[^\t][^\t]\{0,2}" contained
syntax match rpgiiBlank "\%14v \{1,3}\%(\%17v\|$\)" contained
syntax match rpgiiOGroupAndOrOr "\%14v\%(AND\|OR \|OR\s*$\)" contained
syntax match rpgiiOGroupFirstOutputIndicator "\%23v[^\t]\{1,3}" contained
syntax match rpgiiOGroupSecondOutputIndicator "\%26v[^\t]\{1,3}" contained
syntax match rpgiiOGroupThirdOutputIndicator "\%29v[^\t]\{1,3}" contained
syntax match rpgiiOGroup "^\%(\t\| \{1,4}\t\|[ 0-9]\{5}\)O\*\@! \{7}\%(AND\|OR\).*$" contains=rpgiiOGroupAndOrOr,rpgiiOGroupFirstOutputIndicator,rpgiiOGroupSecondOutputIndicator,rpgiiOGroupThirdOutputIndicator,rpgiiSheet,rpgiiNumber
syntax match rpgiiOGroup "^[ 0-9]\{5}O\*\@! \{7}\%(AND\|OR\)[^\t]*$" contains=rpgiiOGroupAndOrOr,rpgiiOGroupFirstOutputIndicator,rpgiiOGroupSecondOutputIndicator,rpgiiOGroupThirdOutputIndicator,rpgiiSheet,rpgiiNumber,rpgiiOGroupWrong,rpgiiBlank

syntax match rpgiiNumber "^\d\{1,5}" contained
syntax match rpgiiSheet "\%6v[HFICO]" contained

highlight default link rpgiiStatement PreProc
highlight default link rpgiiKeyword Keyword
highlight default link rpgiiEnd PreProc
highlight default link rpgiiTyped Comment
highlight default link rpgiiPieces String
highlight default link rpgiiColumn Number
highlight default link rpgiiComment Comment
highlight default link rpgiiSheet Title
highlight default link rpgiiNumber NonText
highlight default link rpgiiWrong Error
highlight default link rpgiiHComment Comment
highlight default link rpgiiHProgramIdentification Identifier
highlight default link rpgiiHCardWrong rpgiiWrong
highlight default link rpgiiFFilename Type
highlight default link rpgiiFFileType PreProc
highlight default link rpgiiFFileDesignation PreProc
highlight default link rpgiiFEndOfFile PreProc
highlight default link rpgiiFSequence PreProc
highlight default link rpgiiFFileFormat PreProc
highlight default link rpgiiFBlockLength Number
highlight default link rpgiiFRecordLength Number
highlight default link rpgiiFModeOfProcessing PreProc
highlight default link rpgiiFLengthOfKeyField Number
highlight default link rpgiiFRecordAddressType PreProc
highlight default link rpgiiFTypeOfFileOrganization PreProc
highlight default link rpgiiFOverflowIndicator Special
highlight default link rpgiiFKeyFieldStartingLocation Number
highlight default link rpgiiFDevice PreProc
highlight default link rpgiiFFileAddition PreProc
highlight default link rpgiiFFileCondition Special
highlight default link rpgiiFCardWrong rpgiiWrong
highlight default link rpgiiCControlLevel Special
highlight default link rpgiiCFirstIndicator Special
highlight default link rpgiiCSecondIndicator Special
highlight default link rpgiiCThirdIndicator Special
highlight default link rpgiiCFactor1 Identifier
highlight default link rpgiiCOperation Statement
highlight default link rpgiiCFactor2 Identifier
highlight default link rpgiiCResultField Identifier
highlight default link rpgiiCFieldLength Number
highlight default link rpgiiCDecimalPositions Number
highlight default link rpgiiCHalfAdjust PreProc
highlight default link rpgiiCResultingIndicatorPlusOrHigh Special
highlight default link rpgiiCResultingIndicatorMinusOrLow Special
highlight default link rpgiiCResultingIndicatorZeroOrEqual Special
highlight default link rpgiiCComments Comment
highlight default link rpgiiCCardWrong rpgiiWrong
highlight default link rpgiiIFieldPacked PreProc
highlight default link rpgiiIFieldFieldLocationFrom Number
highlight default link rpgiiIFieldFieldLocationTo Number
highlight default link rpgiiIFieldDecimalPositions Number
highlight default link rpgiiIFieldFieldName Identifier
highlight default link rpgiiIFieldControlLevel Special
highlight default link rpgiiIFieldMatchingFields Special
highlight default link rpgiiIFieldFieldRecordRelation Special
highlight default link rpgiiIFieldFieldIndicatorPlus Special
highlight default link rpgiiIFieldFieldIndicatorMinus Special
highlight default link rpgiiIFieldFieldIndicatorZeroOrBlank Special
highlight default link rpgiiIFieldWrong rpgiiWrong
highlight default link rpgiiOFieldFirstOutputIndicator Special
highlight default link rpgiiOFieldSecondOutputIndicator Special
highlight default link rpgiiOFieldThirdOutputIndicator Special
highlight default link rpgiiOFieldFieldName Identifier
highlight default link rpgiiOFieldEditCodes PreProc
highlight default link rpgiiOFieldBlankAfter PreProc
highlight default link rpgiiOFieldEndPositionInOutputRecord Number
highlight default link rpgiiOFieldPacked PreProc
highlight default link rpgiiOFieldConstantOrEditWord String
highlight default link rpgiiOFieldWrong rpgiiWrong
highlight default link rpgiiIRecordFilename Type
highlight default link rpgiiIRecordSequence PreProc
highlight default link rpgiiIRecordRecordIdentifyingIndicator Special
highlight default link rpgiiIRecordPosition Number
highlight default link rpgiiIRecordNot PreProc
highlight default link rpgiiIRecordCZD PreProc
highlight default link rpgiiIRecordCharacter PreProc
highlight default link rpgiiIRecordWrong rpgiiWrong
highlight default link rpgiiORecordFilename Type
highlight default link rpgiiORecordType PreProc
highlight default link rpgiiORecordRecordAddition PreProc
highlight default link rpgiiORecordSpaceBefore Number
highlight default link rpgiiORecordSpaceAfter Number
highlight default link rpgiiORecordSkipBefore Number
highlight default link rpgiiORecordSkipAfter Number
highlight default link rpgiiORecordFirstOutputIndicator Special
highlight default link rpgiiORecordSecondOutputIndicator Special
highlight default link rpgiiORecordThirdOutputIndicator Special
highlight default link rpgiiORecordWrong rpgiiWrong
highlight default link rpgiiIGroupAndOrOr PreProc
highlight default link rpgiiIGroupRecordIdentifyingIndicator Special
highlight default link rpgiiIGroupPosition Number
highlight default link rpgiiIGroupNot PreProc
highlight default link rpgiiIGroupCZD PreProc
highlight default link rpgiiIGroupCharacter PreProc
highlight default link rpgiiIGroupWrong rpgiiWrong
highlight default link rpgiiOGroupAndOrOr PreProc
highlight default link rpgiiOGroupFirstOutputIndicator Special
highlight default link rpgiiOGroupSecondOutputIndicator Special
highlight default link rpgiiOGroupThirdOutputIndicator Special
highlight default link rpgiiOGroupWrong rpgiiWrong

let b:current_syntax = "rpgii"
