with Ada.Text_IO; with Ada.Unchecked_Deallocation;
procedure Main is
type Mark is null record; type Link is access Mark;
procedure Free is new Ada.Unchecked_Deallocation (Mark, Link);
A : Link := new Mark; B : Link;
begin
B := A; A := new Mark; Free (B);
if B = null and A /= null then Ada.Text_IO.Put_Line ("one is left"); end if;
end Main;
