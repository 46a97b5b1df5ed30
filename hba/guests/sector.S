/* A boot sector that says on the first serial port what INT 13h does on the disk that it came from: it reads sector 1, adds up the bytes of
   sectors 64 to 127, writes sectors 200 and 201, and reads them again. With the symbol TRIES it calls INT 13h so often until there is no error. */
.code16
.ifndef TRIES
.set TRIES, 1
.endif
.globl _start
_start:
    xor %ax, %ax
    mov %ax, %ds
    mov %ax, %es
    mov %ax, %ss
    mov $0x7c00, %sp
    sti
    mov %dl, drive
    mov $0x4200, %ax            /* read sector 1, which has a text */
    call disk
    mov $0x8000, %si
    call print
    movw $64, packet + 2        /* read sectors 64 to 127, and add up their bytes */
    movl $64, packet + 8
    mov $0x4200, %ax
    call disk
    mov $0x8000, %si
    mov $32768, %cx
    xor %bx, %bx
add:
    xor %ax, %ax
    lodsb
    add %ax, %bx
    loop add
    mov $sum, %si
    call print
    call print_word
    movw $2, packet + 2         /* write sectors 200 and 201 */
    movl $200, packet + 8
    mov $0x5a, %al
    call fill
    mov $0x4300, %ax
    call disk
    xor %al, %al                /* and read them again */
    call fill
    mov $0x4200, %ax
    call disk
    mov $0x8000, %di
    mov $1024, %cx
    mov $0x5a, %al
    repe scasb
    mov $same, %si
    je say
    mov $other, %si
say:
    call print
stop:
    hlt
    jmp stop

/* Fills the buffer's first 1,024 bytes with AL. */
fill:
    mov $0x8000, %di
    mov $1024, %cx
    rep stosb
    ret

/* Calls INT 13h with AX and the packet, which an error changes; an error ends all, or the last try does. */
disk:
    movb $TRIES, left
    mov packet + 2, %cx
again:
    mov %cx, packet + 2
    pusha
    mov drive, %dl
    mov $packet, %si
    int $0x13
    jc failed
    popa
    ret
failed:
    mov %ax, %bx
    mov $error, %si
    call print
    call print_word
    popa
    decb left
    jnz again
    mov $given, %si
    jmp say

/* Prints BX in four hexadecimal digits, and a line feed. */
print_word:
    mov $4, %cx
digit:
    rol $4, %bx
    mov %bl, %al
    and $15, %al
    add $'0', %al
    cmp $'9', %al
    jbe short_digit
    add $7, %al
short_digit:
    call put
    loop digit
    mov $'\n', %al
put:
    push %dx
    push %ax
    mov $0x3fd, %dx
busy:
    in %dx, %al
    test $0x20, %al
    jz busy
    pop %ax
    mov $0x3f8, %dx
    out %al, %dx
    pop %dx
    ret

/* Prints the text at SI. */
print:
    lodsb
    test %al, %al
    jz printed
    call put
    jmp print
printed:
    ret

sum:   .asciz "sum "
same:  .asciz "same\nend\n"
other: .asciz "other\nend\n"
error: .asciz "INT 13h failed: AX "
.if TRIES > 1
given: .asciz "given up\nend\n"
.else
given: .asciz ""
.endif
drive: .byte 0
left:  .byte 0
.balign 4
packet:
    .byte 16, 0
    .word 1
    .word 0x8000, 0
    .quad 1
.org 510
    .word 0xaa55
