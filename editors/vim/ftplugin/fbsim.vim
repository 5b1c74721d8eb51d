" Settings for declarations of fbsim.
if exists("b:did_ftplugin")
  finish
endif
let b:did_ftplugin = 1

setlocal comments=s:(*,e:*),:// commentstring=//\ %s
setlocal shiftwidth=2 softtabstop=2 expandtab
let b:undo_ftplugin = "setlocal comments< commentstring< shiftwidth< softtabstop< expandtab<"
