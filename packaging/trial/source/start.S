        .globl trial_start
        .type trial_start, @function
        .text
trial_start: ret
        .size trial_start, .-trial_start
        .section .note.GNU-stack,"",@progbits
