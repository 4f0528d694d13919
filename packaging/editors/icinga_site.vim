" Vim compiler file: put it into ~/.vim/compiler, then `:compiler icinga_site` and `:make icinga2.conf`.
if exists("current_compiler")
    finish
endif
let current_compiler = "icinga_site"
CompilerSet makeprg=icinga_site\ check\ $*
CompilerSet errorformat=%f:%l:%c:\ %m
