with Ada.Finalization; with Ada.Text_IO; with Ada.Unchecked_Deallocation;
procedure Main is
   type Lamp is new Ada.Finalization.Limited_Controlled with record Hours : Integer := 0; end record;
   overriding procedure Finalize (Object : in out Lamp);
   type Hook is access Lamp;
   procedure Free is new Ada.Unchecked_Deallocation (Lamp, Hook);
   type Room is new Ada.Finalization.Controlled with record Light : Hook; Burnt : Integer := 0; end record;
   overriding procedure Adjust (Object : in out Room);
   overriding procedure Finalize (Object : in out Lamp) is
   begin
      Ada.Text_IO.Put_Line (Integer'Image (Object.Hours));
   end Finalize;
   overriding procedure Adjust (Object : in out Room) is
   begin
      if Object.Light /= null then
         Object.Burnt := Object.Light.Hours;
      end if;
      Object.Light := null;
   exception
      when Constraint_Error => Object.Light := null;
   end Adjust;
   Hall : Room;
   Taken : Hook;
begin
   Hall.Light := new Lamp;
   Hall.Light.Hours := 8;
   declare
      Copy : Room := Hall;
   begin
      if Copy.Light = null then
         Ada.Text_IO.Put_Line ("dark");
      end if;
      Copy.Light := new Lamp;
      Ada.Text_IO.Put_Line (Integer'Image (Copy.Burnt));
   end;
   Taken := Hall.Light;
   Hall.Light := null;
   Free (Taken);
   Ada.Text_IO.Put_Line ("left");
end Main;
