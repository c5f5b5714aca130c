lui x6,16
lui x10,17
addi x10,x10,-1792
addi x17,x0,220
ecall
beq x10,x0,child
jal x1,f
addi x10,x0,0
addi x17,x0,94
ecall
f: lui x8,7
loop: lw x7,1024(x6)
addi x8,x8,-1
bne x8,x0,loop
jalr x0,0(x1)
child: sw x6,1024(x6)
jal x0,child
