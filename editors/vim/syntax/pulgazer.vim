" Domains, problems, plans, certificates and records of Pulgazer (docs/FORMATS.md).
if exists("b:current_syntax")
  finish
endif
syntax case ignore
setlocal iskeyword=33-126,^(,^),^;
setlocal lisp commentstring=;%s

syntax match pulgazerComment /;.*/
syntax match pulgazerVariable /?[^ \t();]\+/
syntax match pulgazerNumber /\<\d\+\(\.\d\+\|\/\d\+\)\=\>/
syntax match pulgazerType /\(\s-\s\+\)\@<=[^ \t();?:]\+/
syntax keyword pulgazerForm define domain problem plan table automaton rule certificate set record
syntax keyword pulgazerClass weak strong cyclic
syntax keyword pulgazerConnective and or not imply exists forall when
syntax keyword pulgazerChoice oneof unknown probabilistic
syntax keyword pulgazerTemporal ax ex af ef ag eg au eu aw ew
syntax keyword pulgazerSection :requirements :types :constants :predicates :invariant :action :parameters :precondition :effect
syntax keyword pulgazerSection :domain :objects :init :goal :ctl-goal :metric :goal-reward
syntax match pulgazerLeftOut /\c(\s*:\(functions\|durative-action\|derived\|constraints\)\>/hs=s+1

highlight default link pulgazerComment Comment
highlight default link pulgazerVariable Identifier
highlight default link pulgazerNumber Number
highlight default link pulgazerType Type
highlight default link pulgazerForm Statement
highlight default link pulgazerClass Constant
highlight default link pulgazerConnective Operator
highlight default link pulgazerChoice Special
highlight default link pulgazerTemporal Repeat
highlight default link pulgazerSection Keyword
highlight default link pulgazerLeftOut Error

let b:current_syntax = "pulgazer"
