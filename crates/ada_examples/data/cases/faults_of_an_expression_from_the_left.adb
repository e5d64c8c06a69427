procedure Main is
B : Boolean := True;
begin
B := (1 + True) and B;
end Main;
