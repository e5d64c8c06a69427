with Ada.Finalization; with Ada.Text_IO;
procedure Main is
   type Bell is new Ada.Finalization.Controlled with record Sound : Integer := 4; end record;
   overriding procedure Adjust (Object : in out Bell);
   type House is record Door : Bell; Number : Integer := 1; end record;
   type Street is access House;
   procedure Ring (Given : in out Bell) is
   begin
      Given.Sound := 5;
      Ada.Text_IO.Put_Line (Integer'Image (Given.Sound));
   end Ring;
   procedure Count (Times : in out Integer) is
   begin
      Times := 6;
   end Count;
   overriding procedure Adjust (Object : in out Bell) is
   begin
      Count (Object.Sound);
      Ada.Text_IO.Put_Line (Integer'Image (Object.Sound));
   end Adjust;
   First : Street := new House;
   Second : Street := new House;
begin
   Ring (First.Door);
   Second.Door := First.Door;
   Second.Number := 2;
   First.all := Second.all;
   Ada.Text_IO.Put_Line (Integer'Image (First.Number));
end Main;
