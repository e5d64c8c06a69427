with Ada.Finalization; with Ada.Text_IO; with Ada.Unchecked_Deallocation;
procedure Main is
   type Leaf is record Value : Integer := 8; end record;
   type Leaf_Link is access Leaf;
   procedure Free_Leaf is new Ada.Unchecked_Deallocation (Leaf, Leaf_Link);
   type Box is new Ada.Finalization.Limited_Controlled with record Held : Leaf_Link; end record;
   overriding procedure Initialize (Object : in out Box);
   overriding procedure Finalize (Object : in out Box);
   type Box_Link is access Box;
   procedure Free_Box is new Ada.Unchecked_Deallocation (Box, Box_Link);
   type Clock is new Ada.Finalization.Controlled with record Hours : Integer := 0; end record;
   overriding procedure Adjust (Object : in out Clock);
   overriding procedure Initialize (Object : in out Box) is
   begin
      Object.Held := new Leaf;
   end Initialize;
   overriding procedure Finalize (Object : in out Box) is
   begin
      Ada.Text_IO.Put_Line ("box");
      Free_Leaf (Object.Held);
   end Finalize;
   overriding procedure Adjust (Object : in out Clock) is
      One : Box_Link;
   begin
      One := new Box;
      if One.Held /= null then
         Object.Hours := One.Held.Value;
      end if;
      Free_Box (One);
   exception
      when others => null;
   end Adjust;
   First : Clock;
   Second : Clock;
begin
   Second := First;
   Ada.Text_IO.Put_Line (Integer'Image (Second.Hours));
end Main;
