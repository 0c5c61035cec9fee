" Vim syntax file
" Language: the language of mesamon, programs of processes and monitors
" tools/check_lists compares its keywords with those of the scanner.

if exists('b:current_syntax')
    finish
endif

let s:saved_cpo = &cpo
set cpo&vim

" Case counts. Words are letters followed by letters and digits, whatever 'iskeyword' is: so keywords are matches here, and
" stand after the names, since of two matches at one place the later one is taken.
syntax case match
syntax match mesaName /\a[0-9A-Za-z]*/
syntax match mesaNumber /\d\+/

syntax match mesaDeclaration /\%(VAR\|RECOVER\|MAIN\)[0-9A-Za-z]\@!/
syntax match mesaDeclaration /\%(PROGRAM\|MONITOR\|PROCEDURE\)[0-9A-Za-z]\@!/ nextgroup=mesaDeclared skipwhite skipempty
syntax match mesaDeclared /\a[0-9A-Za-z]*/ contained
syntax match mesaAccess /\%(ENTRY\|INTERNAL\)[0-9A-Za-z]\@!/
syntax match mesaType /\%(INTEGER\|BOOLEAN\|PROCESS\|CONDITION\|ARRAY\|OF\)[0-9A-Za-z]\@!/
syntax match mesaConditional /\%(IF\|THEN\|ELSE\|ENDIF\)[0-9A-Za-z]\@!/
syntax match mesaRepeat /\%(WHILE\|DO\|ENDLOOP\)[0-9A-Za-z]\@!/
syntax match mesaStatement /\%(CALL\|INTO\|FORK\|JOIN\|RETURN\|WAIT\|NOTIFY\|BROADCAST\|PRINT\|END\)[0-9A-Za-z]\@!/
syntax match mesaException /\%(ABORT\|ABORTED\)[0-9A-Za-z]\@!/
syntax match mesaOperator /\%(OR\|AND\|MOD\|NOT\)[0-9A-Za-z]\@!/
syntax match mesaBoolean /\%(TRUE\|FALSE\)[0-9A-Za-z]\@!/

syntax match mesaOperator /:=\|<=\|>=\|[-=#<>+*\/]/
" What begins no token.
syntax match mesaWrong /[^ \t\r0-9A-Za-z:;,.()\[\]=#<>+*\/-]/
syntax match mesaNotAscii /[^\x00-\x7F]/ contained
syntax match mesaComment /--.*$/ contains=mesaTodo,mesaNotAscii,@Spell
syntax keyword mesaTodo contained TODO FIXME XXX

highlight default link mesaNumber Number
highlight default link mesaDeclaration Structure
highlight default link mesaDeclared Function
highlight default link mesaAccess StorageClass
highlight default link mesaType Type
highlight default link mesaConditional Conditional
highlight default link mesaRepeat Repeat
highlight default link mesaStatement Statement
highlight default link mesaException Exception
highlight default link mesaOperator Operator
highlight default link mesaBoolean Boolean
highlight default link mesaWrong Error
highlight default link mesaNotAscii Error
highlight default link mesaComment Comment
highlight default link mesaTodo Todo

let b:current_syntax = 'mesa'

let &cpo = s:saved_cpo
unlet s:saved_cpo
