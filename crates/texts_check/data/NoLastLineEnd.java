// C.java
class C {
}