# The sum of the numbers from 10 down to 1: it is stored on the stack, and is the exit code.
        addi x5, x0, 10
next:   add  x10, x10, x5       # every register but x2 is 0 at the start
        addi x5, x5, -1
        bne  x5, x0, next
        sd   x10, -8(x2)        # x2 is the stack pointer
        addi x17, x0, 93        # 93 asks to exit, with x10
        ecall
