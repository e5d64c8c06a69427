with Ada.Finalization; with Ada.Text_IO;
procedure Main is
   type Leaf is record Weight : Integer := 1; end record;
   type Stem is access Leaf;
   type Plant is new Ada.Finalization.Controlled with record Grown : Stem; end record;
   overriding procedure Adjust (Object : in out Plant);
   type Garden is access Plant;
   overriding procedure Adjust (Object : in out Plant) is
      Other : Garden;
   begin
      if Other = null then
         Object.Grown := null;
      else
         Object.Grown := new Leaf'(Weight => 2);
      end if;
   exception
      when others => Object.Grown := null;
   end Adjust;
   First  : Plant;
   Second : Plant;
begin
   Second := First;
   Ada.Text_IO.Put_Line ("copied");
end Main;
