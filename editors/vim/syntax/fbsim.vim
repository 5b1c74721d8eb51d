" Vim syntax file
" Language: declarations of fbsim (function blocks and applications of IEC 61499-1)

if exists("b:current_syntax")
  finish
endif
let s:cpo_save = &cpo
set cpo&vim

syntax case ignore
syntax iskeyword @,48-57,_

syntax keyword fbsimStructure FUNCTION_BLOCK END_FUNCTION_BLOCK APPLICATION END_APPLICATION
syntax keyword fbsimStructure EVENT_INPUT EVENT_OUTPUT END_EVENT WITH VAR_INPUT VAR_OUTPUT VAR END_VAR
syntax keyword fbsimStructure FBS END_FBS EVENT_CONNECTIONS DATA_CONNECTIONS END_CONNECTIONS
syntax keyword fbsimStructure EC_STATES END_STATES EC_TRANSITIONS END_TRANSITIONS ALGORITHM END_ALGORITHM TO
syntax keyword fbsimStatement IF THEN ELSIF ELSE END_IF CASE OF END_CASE FOR BY DO END_FOR
syntax keyword fbsimStatement WHILE END_WHILE REPEAT UNTIL END_REPEAT EXIT RETURN
syntax keyword fbsimOperator AND OR XOR NOT MOD
syntax keyword fbsimBoolean TRUE FALSE
syntax keyword fbsimBlock E_RESTART E_SPLIT E_MERGE E_REND E_PERMIT E_SELECT E_SWITCH E_DELAY E_CYCLE
syntax keyword fbsimBlock E_SR E_D_FF E_R_TRIG E_F_TRIG E_CTU
syntax keyword fbsimTodo contained TODO FIXME XXX

" IN and ST are names elsewhere, and so are the functions without their arguments.
syntax match fbsimStructure "\<IN\_s\+ST\>\ze\_s*:"
syntax match fbsimFunction "\<\%(MIN\|MAX\|ABS\|LIMIT\|SEL\)\>\ze\_s*("
" A keyword would come before the literal TIME#1s.
syntax match fbsimType "\<\%(BOOL\|U\=\%(S\|D\|L\)\=INT\|TIME\)\>#\@!"

" Of matches at one place the last one counts: what is no literal is defined before them.
syntax match fbsimError "\<\d\w*\%(#\w*\)\="
syntax match fbsimError "\<\%(T\|TIME\)#-\=\w*"
syntax match fbsimNumber "\<\d\%(_\=\d\)*\>#\@!"
syntax match fbsimNumber "\<\%(2#[01]\%(_\=[01]\)*\|8#\o\%(_\=\o\)*\|16#\x\%(_\=\x\)*\)\>"
syntax match fbsimTime "\<\%(T\|TIME\)#-\=\d\@=\%(\d\%(_\=\d\)*d_\=\)\=\%(\d\%(_\=\d\)*h_\=\)\=\%(\d\%(_\=\d\)*ms\@!_\=\)\=\%(\d\%(_\=\d\)*s_\=\)\=\%(\d\%(_\=\d\)*ms\)\=\>_\@<!"

syntax match fbsimComment "//.*" contains=fbsimTodo
syntax region fbsimComment start="(\*" end="\*)" contains=fbsimTodo
syntax sync minlines=100

highlight default link fbsimStructure Structure
highlight default link fbsimStatement Statement
highlight default link fbsimOperator Operator
highlight default link fbsimBoolean Boolean
highlight default link fbsimBlock Identifier
highlight default link fbsimFunction Function
highlight default link fbsimType Type
highlight default link fbsimNumber Number
highlight default link fbsimTime Number
highlight default link fbsimComment Comment
highlight default link fbsimTodo Todo
highlight default link fbsimError Error

let b:current_syntax = "fbsim"
let &cpo = s:cpo_save
unlet s:cpo_save
