.class public A
