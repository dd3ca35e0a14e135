" What Vim does in texts of Pure Esterel: comments, and `gq` by the client.
if exists("b:did_ftplugin")
  finish
endif
let b:did_ftplugin = 1

setlocal commentstring=%\ %s comments=:%
setlocal shiftwidth=2 expandtab
setlocal formatprg=estserve-client\ format\ -
let b:undo_ftplugin = "setlocal commentstring< comments< shiftwidth< expandtab< formatprg<"
