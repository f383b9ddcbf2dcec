" The words of Simula 67, as this compiler reads them.
if exists("b:current_syntax") | finish | endif
syntax case ignore
syntax keyword simulaStatement activate after at before begin delay do else end for if inner inspect otherwise prior reactivate
syntax keyword simulaStatement step then until when while
syntax keyword simulaOperator and eq eqv ge gt imp in is le lt ne new not or qua this
syntax keyword simulaType array boolean character class integer procedure ref text
syntax keyword simulaStorage hidden name protected value virtual to
syntax keyword simulaConstant false none notext true
syntax keyword simulaLeftOut external go goto label long real short switch
syntax keyword simulaStandard abs blanks char copy detach digit endfile image inchar inimage inint intext isochar isorank lastitem
syntax keyword simulaStandard letter lowcase max maxint min minint mod outchar outimage outint outtext rank rem sign sysin sysout upcase
syntax match simulaNumber "\<\d\+\(R\x\+\)\?\>"
syntax match simulaCharacter "'\(!\d\{1,3}!\|[^\n]\)'"
syntax match simulaCode "!\d\{1,3}!" contained
syntax region simulaText start=+"+ end=+"+ oneline contains=simulaCode
syntax region simulaComment start="!" end=";"
syntax region simulaComment start="\<comment\>" end=";"
syntax match simulaEndComment "\(\<end\>\)\@<=\_[^;]\{-}\ze\(;\|\<end\>\|\<else\>\|\<when\>\|\<otherwise\>\|\%$\)"
highlight default link simulaStatement Statement
highlight default link simulaOperator Operator
highlight default link simulaType Type
highlight default link simulaStorage StorageClass
highlight default link simulaConstant Constant
highlight default link simulaLeftOut Error
highlight default link simulaStandard Function
highlight default link simulaNumber Number
highlight default link simulaCharacter Character
highlight default link simulaCode Special
highlight default link simulaText String
highlight default link simulaComment Comment
highlight default link simulaEndComment Comment
let b:current_syntax = "simula"
