cp 1
members 0
size 1
clients 2
call 1 1 latch d set 2
call 2 1 latch d await 5000
call 1 1 latch d down
call 1 1 latch d down
call 1 1 latch d count
end
