; Holds the one object of Settings. Its initialization lock is what keeps a second thread from making another.
.class Holder
.super java/lang/Object
.field static final one LSettings;

.method static <clinit>()V
.limit stack 2
.limit locals 0
new Settings
dup
invokespecial Settings/<init>()V
putstatic Holder/one LSettings;
return
.end method
