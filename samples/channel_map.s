@ The meter of level_meter.s with the fault that swapped the channel map: it stores the lamp four
@ bytes past its results, through a pointer that nothing has masked or tested. Peak and level sum
@ stay right, so nobody sees it on the meter. The gate refuses it and names that store.
@
@   in:   r0 the samples (16-bit sound), r1 how many, r2 where the results go
@   out:  four words at r2: the peak, the level sum (low, then high word), the overload lamp
@
@ The gate reads code in bundles of sixteen bytes, four words each. A guard and the word it guards
@ must stand side by side in one bundle: .bundle_lock keeps them there, and the assembler puts nops
@ where a bundle has to be filled. A blank line stands between bundles.

        .syntax unified
        .arm
        .bundle_align_mode 4
        .text

        .p2align 4
        .global level_meter
level_meter:
        push    {r4-r6, lr}                     @ an access on sp needs no guard
        ldr     r12, full_scale                 @ a literal load: data that lies in the code
        mov     r4, #0                          @ peak
        mov     r5, #0                          @ level sum, low word

        mov     r6, #0                          @ level sum, high word
        cmp     r1, #0
        beq     done                            @ an empty block

        .p2align 4
loop:
        .bundle_lock                            @ a load behind its mask, and on to the next sample
        bic     r0, r0, #0xC0000000
        ldrsh   r3, [r0], #2
        .bundle_unlock
        sub     r1, r1, #1
        .bundle_lock align_to_end               @ a call stands last: it returns to a bundle's start
call:   bl      abs_value - call                @ (written as a distance, since no linker runs)
        .bundle_unlock

        adds    r5, r5, r3
        adc     r6, r6, #0
        cmp     r3, r4
        movhi   r4, r3

        cmp     r1, #0
        bne     loop                            @ lands on the mask; on the load it would be refused
done:
        cmp     r4, r12
        movhs   r1, #1                          @ overload; else r1 is 0, as no sample is left

        nop                                     @ THE FAULT: no guard, and the results end at 16
        str     r1, [r2, #16]
        .bundle_lock                            @ peak and level sum at once, behind one mask
        bic     r2, r2, #0xC0000000
        stm     r2, {r4-r6}
        .bundle_unlock

        pop     {r4-r6, lr}                     @ into lr, since a load of pc would be refused
        .bundle_lock                            @ a return: to a bundle's start, inside the sandbox
        bic     lr, lr, #0xC000000F
        bx      lr
        .bundle_unlock

        .p2align 4
abs_value:                                      @ r3 becomes its absolute value
        cmp     r3, #0
        rsblt   r3, r3, #0
        .bundle_lock
        bic     lr, lr, #0xC000000F
        bx      lr
        .bundle_unlock

        .p2align 4
        bkpt    0x5BE0                          @ a literal head: the rest of its bundle is data
full_scale:
        .word   0x00007FFF                      @ full scale in 16 bits; |-32768| is above it
        .word   0xEF000000                      @ refused as code (svc), allowed as data
        .word   0xFFFFFFFF
