.class public Solo
.super java/lang/Object
