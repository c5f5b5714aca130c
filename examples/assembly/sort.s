# Fills an array with numbers, sorts it by insertion, and counts what is out of order, for 8, 16, 32, 64 and 128 numbers. In
# assembly a routine is what a `call` goes to and a `ret` comes back from; `.type NAME, @function` gives it its name.

        .equ    LEAST, 8
        .equ    MOST, 128
        .equ    NR_EXIT_GROUP, 94

        .bss
        .align  2
numbers:
        .space  4 * MOST

        .text

# Linux begins here.
        .globl  _start
        .type   _start, @function
_start:
        li      s0, LEAST
        li      s1, MOST
        li      s2, 0
.Lnext_count:
        mv      a0, s0
        call    measure
        add     s2, s2, a0
        slli    s0, s0, 1
        bleu    s0, s1, .Lnext_count
        snez    a0, s2                  # 0 where all were in order
        li      a7, NR_EXIT_GROUP
        ecall

# a0: how many numbers. Gives how many are out of order behind it.
        .type   measure, @function
measure:
        addi    sp, sp, -16
        sw      ra, 12(sp)
        sw      s0, 8(sp)
        mv      s0, a0
        call    fill
        mv      a0, s0
        call    insertion_sort
        mv      a0, s0
        call    count_falls
        lw      s0, 8(sp)
        lw      ra, 12(sp)
        addi    sp, sp, 16
        ret

# Falling numbers, the worst order.
        .type   fill, @function
fill:
        la      t0, numbers
.Lfill_next:
        sw      a0, 0(t0)
        addi    t0, t0, 4
        addi    a0, a0, -1
        bnez    a0, .Lfill_next
        ret

# Each number goes down to its place among those before it.
        .type   insertion_sort, @function
insertion_sort:
        la      t0, numbers
        slli    t1, a0, 2
        add     t1, t1, t0              # the end
        addi    t2, t0, 4               # the number that is put in next
.Lsort_next:
        bgeu    t2, t1, .Lsort_end
        lw      t3, 0(t2)
        mv      t4, t2
.Lsort_down:
        beq     t4, t0, .Lsort_put
        lw      t5, -4(t4)
        bleu    t5, t3, .Lsort_put
        sw      t5, 0(t4)
        addi    t4, t4, -4
        j       .Lsort_down
.Lsort_put:
        sw      t3, 0(t4)
        addi    t2, t2, 4
        j       .Lsort_next
.Lsort_end:
        ret

# How often a number is less than the one before it.
        .type   count_falls, @function
count_falls:
        la      t0, numbers
        slli    t1, a0, 2
        add     t1, t1, t0
        li      a0, 0
        lw      t2, 0(t0)
.Lfalls_next:
        addi    t0, t0, 4
        bgeu    t0, t1, .Lfalls_end
        lw      t3, 0(t0)
        sltu    t4, t3, t2
        add     a0, a0, t4
        mv      t2, t3
        j       .Lfalls_next
.Lfalls_end:
        ret
