def main(): print(0xff); print(0b1010_1010 - 0o17); print((1_000_000 * 1_000_000 * 1_000_000 * 1_000  # up to the bracket
    + 7
        - (0X7FFF_FFFF_FFFF_FFFF)),
); print(2 \
* 3 + \
  (00)); print(0xDEAD_BEEF * 0xcafe_babe + 9_223_372_036_854_775_807)

main (
) ;
