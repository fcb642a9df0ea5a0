" Vim filetype plugin
" Language: WAC (WebAssembly Composition)

if exists('b:did_ftplugin')
  finish
endif
let b:did_ftplugin = 1

setlocal comments=s1:/*,mb:*,ex:*/,:///,://
setlocal commentstring=//\ %s
setlocal formatoptions-=t formatoptions+=croql
" Names are in kebab case, and one that is a keyword begins with a percent sign.
setlocal iskeyword+=-,%
" As wacx fmt indents.
setlocal expandtab shiftwidth=4 softtabstop=4

let b:undo_ftplugin = 'setlocal comments< commentstring< formatoptions< iskeyword<'
      \ . ' expandtab< shiftwidth< softtabstop<'
