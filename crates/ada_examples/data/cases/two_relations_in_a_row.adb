procedure Main is
B : Boolean := True;
begin
B := 1 < 2 = B;
end Main;
