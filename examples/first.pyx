def main():
    cdef long a = 6
    cdef long b = a * 7 - 2
    print(b)
    print(a + b * b)
main()
