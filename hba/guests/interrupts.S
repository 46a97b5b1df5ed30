/* A boot program that takes interrupts of the AHCI function without an operating system: three IDENTIFY DEVICE with INTA#, then three with a message (MSI).
   It prints on the first serial port how many interrupts came for each. It needs little of a processor, so it runs under an emulating KVM, too. */
.code16
.globl _start
.set HBA_LIST, 0x20000           /* the command list, the received FISes, the table and the data */
.set HBA_FIS, 0x20400
.set HBA_TABLE, 0x20500
.set HBA_DATA, 0x21000
_start:
    ljmp $0, $begin
begin:
    xor %ax, %ax
    mov %ax, %ds
    mov %ax, %es
    mov %ax, %ss
    mov $0x7c00, %sp
    mov %dl, drive
    mov $packet, %si            /* the rest of the program, by INT 13h */
    mov $0x4200, %ax
    mov drive, %dl
    int $0x13
    jmp rest
drive: .byte 0
.balign 4
packet:
    .byte 16, 0
    .word 7
    .word 0x7e00, 0
    .quad 1
.org 510
    .word 0xaa55

rest:
    xor %ebp, %ebp
    cli
    lgdt gdt_at                 /* FS reaches 4 GiB from here on */
    mov %cr0, %eax
    or $1, %al
    mov %eax, %cr0
    mov $8, %bx
    mov %bx, %fs
    and $0xfe, %al
    mov %eax, %cr0
    mov $hello, %si
    call print
    /* ---- the function: class 010601h on bus 0 ---- */
    mov $0x80000008, %ebx
find:
    mov %ebx, %eax
    call config_read
    shr $8, %eax
    cmp $0x010601, %eax
    je found
    add $0x800, %ebx
    cmp $0x80010000, %ebx
    jb find
    mov $none, %si
    call print
    jmp stop
found:
    and $0xffffff00, %ebx
    mov %ebx, function
    lea 0x24(%ebx), %eax
    call config_read
    and $0xfffffff0, %eax
    mov %eax, bar
    mov $at, %si
    call print
    mov bar, %ebx
    call print_long
    mov function, %eax
    add $4, %eax
    call config_read
    or $6, %eax
    and $0xfffffbff, %eax
    mov %eax, %ecx
    mov function, %eax
    add $4, %eax
    call config_write
    /* ---- the port, and one command in slot 0 ---- */
    mov bar, %edi
    andl $0xfffffffe, %fs:0x118(%edi)
wait_cr:
    testl $0x8000, %fs:0x118(%edi)
    jnz wait_cr
    movl $HBA_LIST, %fs:0x100(%edi)
    movl $0, %fs:0x104(%edi)
    movl $HBA_FIS, %fs:0x108(%edi)
    movl $0, %fs:0x10c(%edi)
    movl $0xffffffff, %fs:0x130(%edi)
    movl $0xffffffff, %fs:0x110(%edi)
    movl $1, %fs:0x008(%edi)
    orl $0x10, %fs:0x118(%edi)
    orl $1, %fs:0x118(%edi)
    movl $0x00010005, %fs:HBA_LIST(%ebp)      /* 5 dwords, one entry */
    movl $0, %fs:HBA_LIST+4(%ebp)
    movl $HBA_TABLE, %fs:HBA_LIST+8(%ebp)
    movl $0, %fs:HBA_LIST+12(%ebp)
    movl $0x00ec8027, %fs:HBA_TABLE(%ebp)
    movl $0, %fs:HBA_TABLE+4(%ebp)
    movl $0, %fs:HBA_TABLE+8(%ebp)
    movl $0, %fs:HBA_TABLE+12(%ebp)
    movl $0, %fs:HBA_TABLE+16(%ebp)
    movl $HBA_DATA, %fs:HBA_TABLE+0x80(%ebp)
    movl $0, %fs:HBA_TABLE+0x84(%ebp)
    movl $0, %fs:HBA_TABLE+0x88(%ebp)
    movl $511, %fs:HBA_TABLE+0x8c(%ebp)
    movl $3, %fs:0x114(%edi)            /* DHRE, PSE */
    orl $2, %fs:0x004(%edi)             /* GHC.IE */
    /* ---- INTx: the line's number is in configuration space ---- */
    mov function, %eax
    add $0x3c, %eax
    call config_read
    movzbl %al, %ebx
    mov %bl, line
    mov $line_text, %si
    call print
    call print_long
    mov line, %bl
    sub $8, %bl
    mov $1, %al
    mov %bl, %cl
    shl %cl, %al
    not %al
    mov %al, %ah
    in $0xa1, %al
    and %ah, %al
    out %al, $0xa1
    in $0x21, %al
    and $0xfb, %al
    out %al, $0x21
    movzbw %bl, %bx
    add $0x70, %bx
    shl $2, %bx
    movw $on_line, (%bx)
    movw $0, 2(%bx)
    mov $3, %cx
    call commands
    mov $intx, %si
    call report
    /* ---- MSI ---- */
    movw $on_message, 0x60 * 4
    movw $0, 0x60 * 4 + 2
    movl $0x1ff, %fs:0xfee000f0(%ebp)         /* the local APIC is on */
    mov function, %eax
    add $0x44, %eax
    mov $0xfee00000, %ecx
    call config_write
    mov function, %eax
    add $0x48, %eax
    xor %ecx, %ecx
    call config_write
    mov function, %eax
    add $0x4c, %eax
    mov $0x60, %ecx
    call config_write
    mov function, %eax
    add $0x40, %eax
    call config_read
    or $0x10000, %eax
    mov %eax, %ecx
    mov function, %eax
    add $0x40, %eax
    call config_write
    movl $0, count
    movl $0, empty
    mov $3, %cx
    call commands
    mov $msi, %si
    call report
    mov $end_text, %si
    call print
stop:
    hlt
    jmp stop

/* CX commands, one after the other, each until an interrupt has come. */
commands:
    mov bar, %edi
    movl $0, %fs:HBA_LIST+4(%ebp)
    mov count, %edx
    cli
    movl $1, %fs:0x138(%edi)
sleep:
    sti
    hlt
    cli
    cmp %edx, count
    je sleep
    testl $1, %fs:0x138(%edi)
    jnz sleep
    sti
    loop commands
    ret

on_line:
    push %eax
    call take
    mov $0x20, %al
    out %al, $0xa0
    out %al, $0x20
    pop %eax
    iret
on_message:
    push %eax
    call take
    movl $0, %fs:0xfee000b0(%ebp)
    pop %eax
    iret
/* What both do: the port's causes are cleared, then the function's. */
take:
    push %edi
    mov bar, %edi
    mov %fs:0x008(%edi), %eax
    test %eax, %eax
    jnz some
    incl empty
    jmp taken
some:
    mov %fs:0x110(%edi), %eax
    mov %eax, %fs:0x110(%edi)
    movl $1, %fs:0x008(%edi)
    incl count
taken:
    pop %edi
    ret

report:
    call print
    mov count, %ebx
    call print_long
    mov $with, %si
    call print
    mov empty, %ebx
    call print_long
    mov $model, %si
    call print
    movzwl %fs:HBA_DATA+54(%ebp), %ebx        /* "SO" of SOFTWARE, with its bytes swapped */
    call print_long
    ret

config_read:
    mov $0xcf8, %dx
    out %eax, %dx
    mov $0xcfc, %dx
    in %dx, %eax
    ret
config_write:
    mov $0xcf8, %dx
    out %eax, %dx
    mov %ecx, %eax
    mov $0xcfc, %dx
    out %eax, %dx
    ret
print_long:
    mov $8, %cx
digit:
    rol $4, %ebx
    mov %bl, %al
    and $15, %al
    add $'0', %al
    cmp $'9', %al
    jbe short_digit
    add $7, %al
short_digit:
    call put
    loop digit
    mov $'\n', %al
put:
    push %dx
    push %ax
    mov $0x3fd, %dx
busy:
    in %dx, %al
    test $0x20, %al
    jz busy
    pop %ax
    mov $0x3f8, %dx
    out %al, %dx
    pop %dx
    ret
print:
    lodsb
    test %al, %al
    jz printed
    call put
    jmp print
printed:
    ret
.balign 8
gdt: .quad 0
     .quad 0x00cf92000000ffff
gdt_at: .word 15
        .long gdt
function: .long 0
bar: .long 0
count: .long 0
empty: .long 0
line: .byte 0
hello: .asciz "begin\n"
none: .asciz "no AHCI\n"
at: .asciz "BAR 5 "
line_text: .asciz "line "
intx: .asciz "INTx handled "
msi: .asciz "MSI handled "
with: .asciz " without a cause "
model: .asciz " model "
end_text: .asciz "end\n"
.org 4096
