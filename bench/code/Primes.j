; Prints the sum of the primes below a million, in 32 bits. The sieve holds the odd numbers alone: 2 i + 1 is at i.
.class public Primes

.method static primes()I
.limit stack 3
.limit locals 5
ldc 500000
newarray boolean
astore 0
iconst_2
istore 1
iconst_1
istore 2
Next:
iload 2
ldc 500000
if_icmpge Done
aload 0
iload 2
baload
ifne Composite
iload 2
iconst_2
imul
iconst_1
iadd
istore 3
iload 1
iload 3
iadd
istore 1
iload 3
sipush 1000
if_icmpge Composite
iload 3
iload 3
imul
iconst_2
idiv
istore 4
Multiples:
iload 4
ldc 500000
if_icmpge Composite
aload 0
iload 4
iconst_1
bastore
iload 4
iload 3
iadd
istore 4
goto Multiples
Composite:
iinc 2 1
goto Next
Done:
iload 1
ireturn
.end method

.method public static main([Ljava/lang/String;)V
.limit stack 2
.limit locals 1
getstatic java/lang/System/out Ljava/io/PrintStream;
invokestatic Primes/primes()I
invokevirtual java/io/PrintStream/println(I)V
return
.end method
