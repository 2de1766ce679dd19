#compdef beamkit
# Completes the words of beamkit in zsh: the commands, the words of `show`, and names of files, which are
# those of .beam files and folders; for `asm`, and where there are none of these, they are all files.

local -a commands tables
commands=(
  'info:print the ids and sizes of the chunks'
  'show:print one table'
  'disasm:print a listing'
  'asm:assemble a listing'
  'strip:leave out what a running node does not want'
  'canon:print the canonical file'
  'cmp:tell whether two modules are the same'
  'validate:judge the code'
  'gen:make a module of so many functions and judge it'
)
tables=(
  'atoms:names of the module'
  'imports:functions that it calls elsewhere'
  'exports:functions that may be called'
  'locals:functions of its own'
  'funs:functions that are passed as values'
  'literals:terms that the code uses'
  'lines:where its lines come from'
  'attributes:what the module says of itself'
  'compile:how it was compiled'
)

case $CURRENT:$words[2] in
  2:*) _describe command commands ;;
  3:show) _describe table tables ;;
  3:asm) _files ;;
  4:show|3:cmp|4:cmp|3:info|3:disasm|3:strip|3:canon|3:validate) _files -g '*.beam' ;;
  3:gen) _message 'a number from 1 to 2000' ;;
esac
