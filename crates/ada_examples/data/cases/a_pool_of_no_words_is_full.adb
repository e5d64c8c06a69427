with Ada.Text_IO; with Profile_Pools;
procedure Main is
Words : constant := 0;
Room : Profile_Pools.First_Fit_Pool (Words);
type Mark is null record;
type Ref is access Mark with Storage_Pool => Room;
R : Ref;
begin
R := new Mark;
exception
when Storage_Error => Ada.Text_IO.Put_Line ("full");
end Main;
