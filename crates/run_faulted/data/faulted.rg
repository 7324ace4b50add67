import "regent"

task main()
  var n = 10
  while true do
    regentlib.c.printf("%d\n", 60 / n)
    n = n - 5
  end
end

regentlib.start(main)
