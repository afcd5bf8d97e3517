def main():
    cdef long x = 7
    cdef long p
    print(p)
    p = 3
    p = p * x + 5
    p = p * x - 11
    p = p * x + 2
    print(p)
    print(3 * x * x * x + 5 * x * x - 11 * x + 2)
main()
