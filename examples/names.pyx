# Names may be long and of any script, and blank lines and comments stand where one likes.

def main():

  # Two blanks are a level of indentation too.
  cdef long seconds_of_a_day = 24 * 60 * 60
  cdef long größe=7
  cdef long   面積   =   größe*größe    # no blanks, or several
  cdef long _x1

      # How deep a comment stands says nothing.
  print(seconds_of_a_day); print(面積); print(_x1);
  größe = größe + 1; 面積 = größe * 面積
  print ( 面積 - seconds_of_a_day )

  _x1 = größe * seconds_of_a_day * seconds_of_a_day * seconds_of_a_day * seconds_of_a_day
  print(_x1)

main()  # the call
# and no more
