" Vim syntax of scripts of rccerun (*.rcce): docs/SCRIPTS.md tells the language.
if exists('b:current_syntax')
  finish
endif
syntax case match

syntax match rcceComment /#.*$/ contains=rcceTodo
syntax keyword rcceTodo TODO FIXME contained
syntax match rcceVersion /^\s*rcce\s\+[12]\>/
syntax match rcceSection /^\s*\(all\|even\|odd\)\>/
syntax match rcceSection /^\s*ue\s\+\d\+\(-\d\+\)\?/
syntax match rcceStatement /^\s*\(bytes\|ints\|longs\|fill\|rank\|apply\|print\)\>/
syntax match rcceMessage /^\s*\(send\|recv\|post\)\>/
syntax match rcceMeeting /^\s*\(split\|barrier\|bcast\|reduce\|allreduce\)\>/
syntax match rcceRepeat /^\s*\(repeat\|end\)\>/
syntax keyword rcceType int long
syntax keyword rcceOperator sum prod min max mod div of
syntax match rcceNumber /\(\s\)\@<=[+-]\?\d\+\>/
syntax match rcceHex /\(^\s*bytes\s\+\w\+\s\+\)\@<=\(\x\x\)\+\>/

highlight default link rcceComment Comment
highlight default link rcceTodo Todo
highlight default link rcceVersion PreProc
highlight default link rcceSection Label
highlight default link rcceStatement Statement
highlight default link rcceMessage Function
highlight default link rcceMeeting Special
highlight default link rcceRepeat Repeat
highlight default link rcceType Type
highlight default link rcceOperator Operator
highlight default link rcceNumber Number
highlight default link rcceHex Number

let b:current_syntax = 'rcce'
