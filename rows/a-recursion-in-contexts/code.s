jal x1,f
jal x5,g
addi x8,x0,1
jal x1,f
addi x17,x0,93
ecall
f: bne x7,x0,h
addi x7,x0,1
jal x5,f
jalr x0,0(x1)
h: bne x8,x0,k
jalr x0,0(x5)
k: jal x5,g
jalr x0,0(x1)
g: jalr x0,0(x5)
