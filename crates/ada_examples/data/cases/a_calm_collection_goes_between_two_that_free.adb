with Ada.Finalization; with Ada.Text_IO; with Ada.Unchecked_Deallocation; with Profile_Pools;
procedure Main is
   type Cell is record Value : Integer := 3; end record;
   type Ref is access Cell;
   procedure Free is new Ada.Unchecked_Deallocation (Cell, Ref);
   type Box;
   type Box_Link is access Box;
   type Sheet;
   type Sheet_Link is access Sheet;
   type Lid;
   type Lid_Link is access Lid;
   type Box is new Ada.Finalization.Limited_Controlled with record Item : Ref; Top : Lid_Link; Inside : Sheet_Link; end record;
   overriding procedure Finalize (Object : in out Box);
   type Sheet is record Number : Integer := 0; Of_Lid : Lid_Link; end record;
   type Lid is new Ada.Finalization.Limited_Controlled with record Item : Ref; Under : Box_Link; end record;
   overriding procedure Finalize (Object : in out Lid);
   overriding procedure Finalize (Object : in out Box) is
   begin
      Ada.Text_IO.Put_Line ("box");
      Free (Object.Item);
   end Finalize;
   overriding procedure Finalize (Object : in out Lid) is
   begin
      Ada.Text_IO.Put_Line ("lid");
      Free (Object.Item);
   end Finalize;
   B : Box_Link := new Box;
begin
   B.Item := new Cell;
   B.Inside := new Sheet;
   B.Inside.Of_Lid := new Lid;
   B.Top := new Lid;
   B.Top.Item := new Cell;
   B.Top.Under := new Box;
   B.Top.Under.Inside := new Sheet;
end Main;
