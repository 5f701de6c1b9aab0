" Vim compiler file: :compiler gf, then :make on a .gf file jumps to the place of a refusal.
if exists("current_compiler")
  finish
endif
let current_compiler = "gf"

if exists(":CompilerSet") != 2
  command -nargs=* CompilerSet setlocal <args>
endif

CompilerSet makeprg=gfs\ --\ %:S\ </dev/null
CompilerSet errorformat=%+Erefused\ %.%#\ at\ %f:%l:%c,%+Erefused\ %.%#\ at\ %f:%l:%c:\ %.%#,%-G%.%#
