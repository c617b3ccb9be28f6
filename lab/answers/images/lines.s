# Stores into one line of the stack after the other, from the stack pointer down, without end.
        addi x5, x2, 0
next:   sb   x5, 0(x5)
        addi x5, x5, -64
        jal  x0, next
