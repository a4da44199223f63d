cp 1
members 0
size 1
clients 2
limit k 2
call 1 1 lock k lock
call 2 1 lock k lock
call 1 1 session close
call 2 1 lock k owner
call 1 1 lock k unlock
end
