procedure Main is
B : Boolean := True;
begin
B := B and then B and B;
end Main;
