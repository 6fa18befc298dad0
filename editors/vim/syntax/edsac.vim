" Sources of the EDSAC: docs/LANGUAGE.md has their lines.
if exists("b:current_syntax")
  finish
endif
syntax case match

" A comment, from a semicolon that is in no string.
syntax match edsacComment /;.*$/

" The words that begin a line, and what follows each.
syntax match edsacVersion /\%(^\s*\)\@<=version\ze\s\+\d/ nextgroup=edsacLast skipwhite
syntax match edsacSegment /\%(^\s*\)\@<=segment\ze\s\+[a-z]/ nextgroup=edsacSegmentName skipwhite
syntax match edsacSegmentName /[a-z][a-z0-9_]*/ contained nextgroup=edsacAt skipwhite
syntax match edsacAt /at\ze\s\+\d/ contained nextgroup=edsacLast skipwhite
syntax match edsacUse /\%(^\s*\)\@<=use\ze\s\+[a-z]/ nextgroup=edsacRoutine skipwhite
syntax match edsacRoutine /[a-z][a-z0-9_]*/ contained nextgroup=edsacAs skipwhite
syntax match edsacAs /as\ze\s/ contained nextgroup=edsacUseName skipwhite
syntax match edsacUseName /[a-z][a-z0-9_]*/ contained nextgroup=edsacWith skipwhite
syntax match edsacWith /with\ze\s/ contained nextgroup=edsacSetting skipwhite
syntax match edsacSetting /[HNM&LX]/ contained nextgroup=edsacEquals skipwhite
syntax match edsacEquals /=/ contained nextgroup=edsacSetNumber,edsacSetName skipwhite
syntax match edsacSetNumber /\d\+/ contained nextgroup=edsacComma skipwhite
syntax match edsacSetName /_\=[a-z][a-z0-9_]*/ contained nextgroup=edsacSetSign,edsacComma skipwhite
syntax match edsacSetSign /[+-]/ contained nextgroup=edsacSetNumber,edsacSetName skipwhite
syntax match edsacComma /,/ contained nextgroup=edsacSetting skipwhite
syntax match edsacEnter /\%(^\s*\)\@<=enter\ze\s\+[a-z]/ nextgroup=edsacEnterName skipwhite
syntax match edsacEnterName /[a-z][a-z0-9_]*/ contained

" A label, and what may follow it or begin a line.
syntax match edsacLabel /\%(^\s*\)\@<=_\=[a-z][a-z0-9_]*\ze\s*:/ nextgroup=edsacColon skipwhite
syntax match edsacColon /:/ contained nextgroup=edsacOrder,edsacNumberWord,edsacStringWord skipwhite
syntax match edsacOrder /\%(\%(^\|:\)\s*\)\@<=[A-Z#*.@!&]/ nextgroup=edsacAddress,edsacName,edsacLength skipwhite
syntax match edsacAddress /\d\+/ contained nextgroup=edsacLength skipwhite
syntax match edsacName /_\=[a-z][a-z0-9_]*/ contained nextgroup=edsacSign,edsacLength skipwhite
syntax match edsacSign /[+-]/ contained nextgroup=edsacAddress,edsacSecond skipwhite
syntax match edsacSecond /_\=[a-z][a-z0-9_]*/ contained nextgroup=edsacLength skipwhite
syntax match edsacLength /[FD]/ contained
syntax match edsacNumberWord /\%(\%(^\|:\)\s*\)\@<=\%(word\|long\)\ze[ \t-]\+\d/ nextgroup=edsacMinus,edsacLast skipwhite
syntax match edsacMinus /-/ contained nextgroup=edsacLast skipwhite
syntax match edsacLast /\d\+/ contained
syntax match edsacStringWord /\%(\%(^\|:\)\s*\)\@<=\%(text\|data\)\ze\s*"/ nextgroup=edsacString skipwhite
syntax match edsacString /"[^"]*"/ contained

highlight default link edsacComment Comment
highlight default link edsacVersion Statement
highlight default link edsacSegment Statement
highlight default link edsacAt Statement
highlight default link edsacUse Statement
highlight default link edsacAs Statement
highlight default link edsacWith Statement
highlight default link edsacEnter Statement
highlight default link edsacNumberWord Statement
highlight default link edsacStringWord Statement
highlight default link edsacLabel Label
highlight default link edsacSegmentName Identifier
highlight default link edsacRoutine Identifier
highlight default link edsacUseName Identifier
highlight default link edsacEnterName Identifier
highlight default link edsacSetName Identifier
highlight default link edsacName Identifier
highlight default link edsacSecond Identifier
highlight default link edsacSetting Special
highlight default link edsacOrder Function
highlight default link edsacLength Type
highlight default link edsacAddress Number
highlight default link edsacSetNumber Number
highlight default link edsacLast Number
highlight default link edsacColon Operator
highlight default link edsacEquals Operator
highlight default link edsacSign Operator
highlight default link edsacSetSign Operator
highlight default link edsacMinus Operator
highlight default link edsacComma Delimiter
highlight default link edsacString String

let b:current_syntax = "edsac"
