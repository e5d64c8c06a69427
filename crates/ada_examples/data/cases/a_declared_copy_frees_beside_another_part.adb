with Ada.Finalization; with Ada.Text_IO; with Ada.Unchecked_Deallocation;
procedure Main is
   type Bead is record Hue : Integer := 2; end record;
   type String_Of is access Bead;
   type Lock is new Ada.Finalization.Controlled with record Worn : String_Of; end record;
   overriding procedure Adjust (Object : in out Lock);
   type Chest is record Top : Lock; Bottom : Lock; end record;
   type Key is access Chest;
   procedure Free is new Ada.Unchecked_Deallocation (Bead, String_Of);
   overriding procedure Adjust (Object : in out Lock) is
      Other : String_Of;
   begin
      Other := new Bead;
      Object.Worn := new Bead'(Hue => Object.Worn.Hue);
      Free (Other);
   exception
      when others => Object.Worn := null;
   end Adjust;
   Found : Key;
begin
   Found := new Chest;
   Found.Top.Worn := new Bead;
   declare
      Copy : Chest := Found.all;
   begin
      Ada.Text_IO.Put_Line (Integer'Image (Copy.Top.Worn.Hue));
      if Copy.Bottom.Worn = null then
         Ada.Text_IO.Put_Line ("null");
      end if;
   end;
end Main;
