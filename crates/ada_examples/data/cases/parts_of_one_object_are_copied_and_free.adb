with Ada.Finalization; with Ada.Text_IO; with Ada.Unchecked_Deallocation;
procedure Main is
   type Ink is record Depth : Integer := 6; end record;
   type Pen is access Ink;
   type Case_Of_Pen is new Ada.Finalization.Controlled with record Held : Pen; end record;
   overriding procedure Adjust (Object : in out Case_Of_Pen);
   type Pair is record One : Case_Of_Pen; Two : Case_Of_Pen; end record;
   type Desk is record Upper : Pair; Lower : Pair; end record;
   procedure Free is new Ada.Unchecked_Deallocation (Ink, Pen);
   overriding procedure Adjust (Object : in out Case_Of_Pen) is
   begin
      Object.Held := new Ink'(Depth => Object.Held.Depth);
      if Object.Held.Depth > 6 then
         Free (Object.Held);
      end if;
   exception
      when others => Object.Held := null;
   end Adjust;
   Place : Desk;
begin
   Place.Upper.One.Held := new Ink;
   Place.Upper.Two.Held := new Ink;
   Place.Upper.One.Held.Depth := 8;
   Place.Lower := Place.Upper;
   if Place.Lower.One.Held = null then
      Ada.Text_IO.Put_Line ("null");
   end if;
   Ada.Text_IO.Put_Line (Integer'Image (Place.Lower.Two.Held.Depth));
   Ada.Text_IO.Put_Line (Integer'Image (Place.Upper.One.Held.Depth));
end Main;
