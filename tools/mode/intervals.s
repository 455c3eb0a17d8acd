# j1850_intervals as callers have it: the proved call, in IEEE's default mode of arithmetic whatever the thread's own is. The
# proved code judges volts by differences that round to nearest and keep the smallest numbers; a thread can be set otherwise, as
# -ffast-math sets it, and the same code would then give other answers. So the mode is kept, set to the default for the call, and
# put back after it, the thread's flags of exceptions too. All arguments and the answer stay where they are: in registers. This
# is the one part of the library that is not proved; tools/mode/run runs it in every mode.
    .text
    .globl j1850_intervals
    .type j1850_intervals, @function
    .hidden j1850_intervals_proved
j1850_intervals:
    .cfi_startproc
    subq $24, %rsp
    .cfi_adjust_cfa_offset 24
    stmxcsr 12(%rsp)
    movl $0x1F80, 8(%rsp)           # to nearest, nothing flushed to zero, no exception trapped, no flag set
    ldmxcsr 8(%rsp)
    call j1850_intervals_proved
    ldmxcsr 12(%rsp)
    addq $24, %rsp
    .cfi_adjust_cfa_offset -24
    ret
    .cfi_endproc
    .size j1850_intervals, .-j1850_intervals
    .section .note.GNU-stack, "", @progbits
