with Ada.Finalization; with Ada.Text_IO; with Ada.Unchecked_Deallocation;
procedure Main is
   type Tick is record Length : Integer := 6; end record;
   type Hand is access Tick;
   procedure Free is new Ada.Unchecked_Deallocation (Tick, Hand);
   type Clock is new Ada.Finalization.Controlled with record Hours : Integer := 0; end record;
   overriding procedure Adjust (Object : in out Clock);
   overriding procedure Adjust (Object : in out Clock) is
      Pointer : Hand;
      Other : Hand;
   begin
      Pointer := new Tick;
      Object.Hours := Object.Hours + Pointer.Length;
      Other := Pointer;
      Pointer := null;
      Free (Other);
   exception
      when others => null;
   end Adjust;
   One : Clock;
   Two : Clock;
begin
   Two := One;
   One := Two;
   Ada.Text_IO.Put_Line (Integer'Image (One.Hours));
end Main;
