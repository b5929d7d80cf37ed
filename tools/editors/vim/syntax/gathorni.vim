" Suites of Gathorni. Copy or link tools/editors/vim into ~/.vim/pack/gathorni/start/gathorni.

if exists('b:current_syntax')
  finish
endif
syntax case match

syntax keyword gathorniItem check property machine
syntax keyword gathorniSetting runs shrink steps
syntax keyword gathorniPart state bundle invariant rule when into
syntax keyword gathorniStatement draw let assume assert pick from set give
syntax keyword gathorniLogic if then else and or not
syntax keyword gathorniTruth true false
syntax keyword gathorniType int bool text bytes tree list tuple
syntax keyword gathorniStrategy ints bools texts blobs sampled_from lists tuples one_of map filter flatmap recursive self
syntax keyword gathorniFunction len has sum cat rev leaf node label kids labels all any each

syntax match gathorniMark /[-+*\/%=!<>]/
syntax match gathorniNumber /\<\d\+/
syntax match gathorniBytes /\<x"\%(\x\x\)*"/
syntax match gathorniEscape /\\\%(["\\]\|u{\x\{1,6}}\)/ contained
syntax region gathorniText start=/"/ skip=/\\["\\]/ end=/"/ oneline contains=gathorniEscape
syntax match gathorniComment /#.*$/ contains=@Spell

highlight default link gathorniItem Structure
highlight default link gathorniSetting PreProc
highlight default link gathorniPart Structure
highlight default link gathorniStatement Statement
highlight default link gathorniLogic Operator
highlight default link gathorniTruth Boolean
highlight default link gathorniType Type
highlight default link gathorniStrategy Function
highlight default link gathorniFunction Function
highlight default link gathorniMark Operator
highlight default link gathorniNumber Number
highlight default link gathorniBytes String
highlight default link gathorniEscape SpecialChar
highlight default link gathorniText String
highlight default link gathorniComment Comment

let b:current_syntax = 'gathorni'
