" Vim syntax file
" Language: WAC (WebAssembly Composition)

if exists('b:current_syntax')
  finish
endif

syntax case match
syntax iskeyword @,48-57,-,%

" Words joined by hyphens, each of small letters or of capital ones.
let s:word = '%(\l[a-z0-9]*|\u[A-Z0-9]*)'
let s:name = '\%?' . s:word . '%(-' . s:word . ')*'

" A keyword is a whole name, and no part of the name of a package.
syntax keyword wacKeyword contained as constructor export func import include let new package targets use with
syntax keyword wacStorageClass contained async static
syntax keyword wacStructure contained enum flags interface record resource type variant world
syntax keyword wacType contained u8 u16 u32 u64 s8 s16 s32 s64 f32 f64 bool char string
syntax keyword wacType contained borrow error-context future list option result stream tuple
execute 'syntax match wacName "\v' . s:name . '" transparent contains=wacKeyword,wacStorageClass,wacStructure,wacType'

execute 'syntax match wacPackage "\v' . s:name . '%(:' . s:name . ')+%(/' . s:name . ')*'
      \ . '%(\@\d+%(\.[0-9A-Za-z+-]+)*)?"'
syntax match wacOperator "->\|\.\.\.\|="
syntax region wacString start=/"/ end=/"/

" Block comments nest. A matchgroup keeps one from beginning within the mark that opens another.
syntax match wacComment "//.*" contains=@Spell
syntax region wacBlockComment matchgroup=wacBlockComment start="/\*" end="\*/" contains=wacBlockComment,@Spell
syntax match wacDoc "///.*" contains=@Spell
syntax region wacBlockDoc matchgroup=wacBlockDoc start="/\*\*/\@!" end="\*/" contains=wacNestedInDoc,@Spell
syntax region wacNestedInDoc contained matchgroup=wacBlockDoc start="/\*" end="\*/" contains=wacNestedInDoc,@Spell

syntax sync fromstart

highlight default link wacKeyword Keyword
highlight default link wacStorageClass StorageClass
highlight default link wacStructure Structure
highlight default link wacType Type
highlight default link wacPackage Include
highlight default link wacOperator Operator
highlight default link wacString String
highlight default link wacComment Comment
highlight default link wacBlockComment Comment
highlight default link wacDoc SpecialComment
highlight default link wacBlockDoc SpecialComment
highlight default link wacNestedInDoc SpecialComment

let b:current_syntax = 'wac'
