cp 1
members 0
size 1
clients 4
call 1 1 sem s init 2
call 1 1 sem s acquire 2
call 2 1 sem s acquire 2
call 3 1 sem s acquire 1
call 1 1 sem s release 1
call 4 1 sem s try 1 0
call 1 1 sem s release 1
call 1 1 sem s available
end
