a = .t~new
b = .t~new
m = a~start('go', b)
n = b~start('go', a)

::class t
::method go
use arg other
other~poke
::method poke
nop
