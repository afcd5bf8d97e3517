def main():
    cdef long a = 9223372036854775807
    print(a)
    a = a + 1
    print(a)
    print(a - 1)
    print(a * a - 9223372036854775807 * 3)
main()
