" Vim: the syntax of grammars for slif. Of two matches that begin at one place the later one here is taken.

if exists('b:current_syntax')
  finish
endif

" What is no token, and a name.
syntax match slifError '\S'
syntax match slifWord '\k\+'

" Names: in angles, and those that a rule is of.
syntax match slifName '<[[:alnum:]_[:space:]]\+>'
syntax match slifRule '\%(\k\+\|<[[:alnum:]_[:space:]]\+>\)\ze\s*\%(::=\|\~\)'

" Adverbs. A word that is none of them is wrong in front of an arrow.
syntax match slifError '\k\+\ze\s*=>'
syntax match slifAdverb '\<\%(action\|assoc\|rank\|separator\|proper\|latm\|priority\|null-ranking\)\ze\s*=>'
syntax match slifValue '\%(\<assoc\s*=>\s*\)\@<=\%(left\|right\|group\)\>'
syntax match slifValue '\%(\<null-ranking\s*=>\s*\)\@<=\%(low\|high\)\>'

" Statements.
syntax match slifError ':\k\+'
syntax match slifStatement ':\%(start\|default\|lexeme\|discard\)\>'
syntax match slifStatement '\<lexeme\s\+default\>\ze\s*=\%($\|[^>]\)'
syntax match slifOperator '::=\|=>\|[~|*+()=,;]'
syntax match slifNumber '\%(=>\s*\)\@<=[+-]\?\d\+\>'

" Classes and quoted texts, each on one line.
syntax match slifError '\[\%(\\.\|[^]\\]\)*$'
syntax match slifClass '\[\%(\\.\|\[:\^\?\l\+:\]\|[^]\\]\)*\]\%(:ic\?\>\)\?'
syntax match slifAction '\%(\<action\s*=>\s*\)\@<=\%(\[[[:lower:][:digit:],[:space:]]*\]\|::\%(array\|first\|undef\)\>\)'
syntax match slifError "''\|'[^']*$"
syntax match slifQuote "'[^']\+'\%(:ic\?\>\)\?"
syntax match slifComment '#.*$'

highlight default link slifError Error
highlight default link slifName Identifier
highlight default link slifRule Function
highlight default link slifAdverb Keyword
highlight default link slifValue Constant
highlight default link slifNumber Number
highlight default link slifStatement PreProc
highlight default link slifOperator Operator
highlight default link slifClass Special
highlight default link slifAction Type
highlight default link slifQuote String
highlight default link slifComment Comment

let b:current_syntax = 'slif'
