.class public Spare
.super Part
