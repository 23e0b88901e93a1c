; What a compiler makes of enum Level { LOW, HIGH }, with a count of the constants that the constructor keeps.
.class public final enum Level
.super java/lang/Object
.field public static final enum LOW LLevel;
.field public static final enum HIGH LLevel;
.field private static final $VALUES [LLevel;
.field static made I
.field private final number I

.method private <init>(I)V
.limit stack 2
.limit locals 2
aload_0
invokespecial java/lang/Object/<init>()V
aload_0
iload_1
putfield Level/number I
getstatic Level/made I     ; Java forbids this in the constructor of an enum (8.9.2): the field isn't set yet
iconst_1
iadd
putstatic Level/made I
return
.end method

.method static <clinit>()V
.limit stack 4
.limit locals 0
new Level
dup
iconst_0
invokespecial Level/<init>(I)V
putstatic Level/LOW LLevel;
new Level
dup
iconst_1
invokespecial Level/<init>(I)V
putstatic Level/HIGH LLevel;
iconst_2
anewarray Level
dup
iconst_0
getstatic Level/LOW LLevel;
aastore
dup
iconst_1
getstatic Level/HIGH LLevel;
aastore
putstatic Level/$VALUES [LLevel;
iconst_0                   ; static int made = 0, which stands after the constants
putstatic Level/made I
return
.end method

.method public static count()I
.limit stack 1
.limit locals 0
getstatic Level/$VALUES [LLevel;
arraylength
ireturn
.end method

.method public ordinal()I
.limit stack 1
.limit locals 1
aload_0
getfield Level/number I
ireturn
.end method
