" Tapes of the EDSAC, for either set of Initial Orders: docs/MANUAL.md has their items.
if exists("b:current_syntax")
  finish
endif
syntax case match

" An item is a function, a number or none, perhaps the mark, and its ending. K and Z end a control.
syntax match edsactapeFunction /[A-Z#*.@!&]\ze\d*#\=[FD@!HNM&LXGABCVSKZ]/ nextgroup=edsactapeNumber,edsactapeMark,edsactapeControl,edsactapeEnding
syntax match edsactapeNumber /\d\+/ contained nextgroup=edsactapeMark,edsactapeControl,edsactapeEnding
syntax match edsactapeMark /#\ze[FD@!HNM&LXGABCV]/ contained nextgroup=edsactapeEnding
syntax match edsactapeControl /[KZ]/ contained
syntax match edsactapeEnding /[FD@!HNM&LXGABCVS]/ contained
syntax match edsactapeBlank /\.\./

" What follows the entry is the program's own, up to a line that begins with a control.
syntax region edsactapeData start=/E\d*[KZ]\s*[A-Z#*.@!&]\d*#\=[FD@!HNM&LXGABCV]/rs=s end=/^\ze\s*\%([TPE]\d\+[KZ]\|GK\)/ contains=edsactapeComment,edsactapeEntry
syntax match edsactapeEntry /E\ze\d*[KZ]\s*[A-Z#*.@!&]\d*#\=[FD@!HNM&LXGABCV]/ contained nextgroup=edsactapeEntryNumber,edsactapeEntryControl
syntax match edsactapeEntryNumber /\d\+/ contained nextgroup=edsactapeEntryControl
syntax match edsactapeEntryControl /[KZ]/ contained nextgroup=edsactapeEntryItem skipwhite
syntax match edsactapeEntryItem /[A-Z#*.@!&]/ contained nextgroup=edsactapeNumber,edsactapeMark,edsactapeEnding
syntax region edsactapeComment start=/\[/ end=/\]/

highlight default link edsactapeFunction Function
highlight default link edsactapeNumber Number
highlight default link edsactapeMark Operator
highlight default link edsactapeControl Statement
highlight default link edsactapeEnding Type
highlight default link edsactapeBlank Special
highlight default link edsactapeEntry Function
highlight default link edsactapeEntryNumber Number
highlight default link edsactapeEntryControl Statement
highlight default link edsactapeEntryItem Function
highlight default link edsactapeData Constant
highlight default link edsactapeComment Comment

let b:current_syntax = "edsactape"
